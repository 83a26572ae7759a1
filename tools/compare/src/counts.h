/* What tally.c counts and report.c prints. */
#ifndef COUNTS_H
#define COUNTS_H

#include "linetext.h"
#include "tally.h"

enum { FAMILIES = 80, ANSWERS = 27, MOST = 4096 };

typedef struct {
    const char *name;
    Kind kind;
    uint64_t inputs, differences, answers[ANSWERS], classes[LINE_CLASSES];
    uint64_t walks, damage[4]; /* walks that were compared; option strings that are sound, have one past the end, one too short, both */
    uint64_t strict, refused_14; /* what was asked in the strict mode too; of it, what is refused by 14 there, of a pair both */
    uint64_t calls, refused_15;  /* of writing a line: calls, of them those that are refused by 15 */
    uint64_t multiples[3];       /* lines by the original's window: as here, a multiple of the MSS, of the MTU */
    size_t shortest, longest;
} Family;

typedef struct {
    uint64_t times;
    size_t first_size, least_size;
    uint8_t first[MOST], least[MOST];
    Numbers port, original;
} Difference;

typedef struct {
    Family families[FAMILIES];
    int used; /* families; the last of them is tried */
    uint64_t quirks[32], divisors[13], ttl_forms[4], reasons[5];
    uint64_t fuzzy_kinds[2]; /* of fuzzy answers: by a specific record, by a generic one */
    uint64_t passed[3];      /* specific exact behind a generic exact one, behind a fuzzy one; generic exact behind a fuzzy one */
    uint64_t examined[4];    /* searches that count fewer records than the list has, all; of these ended by the last, of an empty list */
    uint64_t replaced[ANSWERS]; /* packets by their plain answer, where the strict one is 14 */
    uint64_t damaged[ANSWERS];  /* packets by their plain answer, where the strict walk stops */
    Difference *differences[KINDS][NUMBERS];
    uint8_t least_line[LINE_CLASSES][MOST];
    size_t least_line_size[LINE_CLASSES];
} Counts;

extern Counts counts;

#endif
