/* What an input shows, as keys; an input is new if it shows a key that fewer inputs than asked for have shown before. */
#ifndef COVER_H
#define COVER_H

#include "numbers.h"

int new_packet(const uint8_t *p, size_t size, const Numbers *answer, const uint8_t *observation);
int new_options(const uint8_t *s, size_t size, const Numbers *answer);

/* passed: what oracle_search gives. place: the byte of the list that was overwritten, or -1; below -2 for one that is kept in any case. */
int new_search(const uint8_t *observation, const uint8_t *list, const Numbers *answer, int passed, int place);

/* Writes to standard error how many keys of each group were shown. */
void cover_report(void);

int first_divisor(const uint8_t *observation);

#endif
