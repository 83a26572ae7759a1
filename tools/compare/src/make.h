/* Random inputs, the same in every run of one seed. */
#ifndef MAKE_H
#define MAKE_H

#include "numbers.h"

typedef struct {
    uint64_t state;
} Random;

enum { PACKET_MOST = 256, LIST_MOST = 2048, RECORDS_MOST = 12 };

uint32_t draw(Random *r);
uint32_t below(Random *r, uint32_t n);
int chance(Random *r, uint32_t percent);
uint8_t byte_of(Random *r);

/* An option string of at most 40 bytes, made of options. */
size_t make_options(Random *r, uint8_t *s);

/* A packet of version 4 or 6 whose lengths agree, and what may befall one. */
size_t make_packet(Random *r, uint8_t *p);
size_t damage_packet(Random *r, uint8_t *p, size_t size);
uint16_t make_peer(Random *r);

/* The original's observation of some random packet. */
void observe(Random *r, uint8_t *o);

/* An observation that no packet need give. */
void make_observation(Random *r, uint8_t *o);

/* A list whose records are derived from an observation, each changed so many times; of three records one is generic. The kinds have draws
   of their own: nothing else of a list hangs on them. */
size_t make_list(Random *r, const uint8_t *o, unsigned records, unsigned changes, uint8_t *list);
size_t damage_list(Random *r, uint8_t *list, size_t size);

/* A signature line of all forms, at most LINE_MOST bytes, good but for a number or a count that is over its bound now and then. */
size_t make_line(Random *r, uint8_t *s);

/* A line after one change: a byte put in, taken out or replaced, two exchanged, the end cut off or lengthened. */
size_t damage_line(Random *r, uint8_t *s, size_t size);

/* Words of the grammar in any order, or bytes of its alphabet, behind a line's beginning or none. */
size_t make_words(Random *r, uint8_t *s);
size_t make_letters(Random *r, uint8_t *s);

#endif
