/* Lines that are written, of observations and of records, into buffers of several lengths. */
#ifndef WRITTEN_H
#define WRITTEN_H

#include "numbers.h"
#include "../../witness/witness.h"

enum { TEXT_MOST = 512 };

/* What is asked for: the raw line of an observation, or, without one, the line of a record of a list. */
typedef struct {
    const witness_observation *observation;
    const uint8_t *list;
    size_t size, index;
} Asked;

/* What is to be said: a refusal, or a text. record, kinds and bytes: what a reader of the text gives. */
typedef struct {
    unsigned refusal;
    size_t bad_record, length;
    uint8_t text[TEXT_MOST];
    uint8_t record[RECORD], kinds[40], bytes[40];
    int multiple; /* 0 or 1 or 2: the original writes the window as a multiple of the MSS, of the MTU */
} Written;

/* An observation from its bytes (tools/original/oracle/original.h). */
witness_observation observation_of(const uint8_t *bytes);

/* What the original says of an observation (its bytes), but for the window, which is this number; of a record by its list. */
void oracle_raw(const uint8_t *observation, unsigned window, Written *out);
void oracle_record(const uint8_t *list, size_t size, size_t index, Written *out);

/* Both in the numbering of numbers.h: the port is asked in an ample room, in one of the line's length, of a byte less and of some bytes
   less; if a refusal is expected, in four rooms, one of no bytes. calls and short_ones count the calls, and of them those that are
   answered by 15. */
void port_written(const Asked *asked, const Written *expected, Numbers *out, uint64_t *calls, uint64_t *short_ones);
void written_numbers(const Written *expected, Numbers *out);

/* Of both: bytes as one number; what a line says, as numbers. */
uint64_t mixed(const uint8_t *s, size_t size);
void reading_numbers(const uint8_t *record, uint64_t count, const uint8_t *kinds, const uint8_t *bytes, Numbers *out);

/* Ask, compare and count (tally.c). */
void try_raw(const uint8_t *observation, unsigned window);
void try_raw_of(const uint8_t *observation, const witness_observation *given, unsigned window);
void try_record(const uint8_t *list, size_t size, size_t index);

/* The first record of a list, whose line is this text whatever the original says. */
void try_text(const uint8_t *list, size_t size, const uint8_t *text, size_t length);

#endif
