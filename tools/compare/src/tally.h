/* What is counted: inputs and answers by family, quirks and the like over all, and differences. */
#ifndef TALLY_H
#define TALLY_H

#include "numbers.h"

/* The last kinds are of differences alone: packets and pairs are also asked in the strict mode, option strings by every walk, and counted
   beside. */
typedef enum {
    PACKET, OPTIONS, SEARCH, PAIR, HOPS, LINE, TTL, RAW_LINE, RECORD_LINE, STRICT_PACKET, STRICT_PAIR, WALK, WALK_PAIR, KINDS
} Kind;

void family(const char *name, Kind kind);

/* Ask both sides, count the answer, and note a difference; the original's answer is handed back. A packet is asked of the port in the
   strict mode too, where its answer must be refusal 14 if the table says so; else, if an option of a SYN or SYN+ACK is damaged, the
   original's answer to the packet that is made sound (damage.h); and else the plain one. */
Numbers try_packet(const uint8_t *p, size_t size, uint16_t peer, uint8_t *observation);
Numbers try_options(const uint8_t *s, size_t size);

/* A walk beside what it must be; and what damage a string has, by its packet walk. */
void try_walk(const Numbers *walk, const Numbers *expected, const uint8_t *s, size_t size);
void count_places(const Numbers *walk);

Numbers try_search(const uint8_t *observation, const uint8_t *list, size_t size);

void try_hops(const uint8_t ttls[6]);
void try_ttl(uint8_t byte);

/* The port's answer to a line beside what the grammar says, and the original's: where that differs, it must be of a named class. */
void try_line(const uint8_t *s, size_t size);

/* Two answers of the port that should be one; p is the input that is shown if they are not. */
void try_pair(const Numbers *a, const Numbers *b, const uint8_t *p, size_t size);

/* The same of two answers in the strict mode. */
void try_strict_pair(const Numbers *a, const Numbers *b, const uint8_t *p, size_t size);

/* The packet walks of their options. */
void try_walk_pair(const Numbers *a, const Numbers *b, const uint8_t *p, size_t size);

/* The place, 1 to 12, of the divisor that gives an observation's multiplier; 0 if there is none. */
int first_divisor(const uint8_t *observation);

/* Prints the tables; gives the number of differences. */
uint64_t report(void);

#endif
