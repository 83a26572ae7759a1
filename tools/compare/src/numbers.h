/* An answer as numbers, from the port and from the original, in one numbering:
   packet   0 answer (1 SYN, 2 SYN+ACK, 3 nothing, 256 x refusal + flags)   1 version   2 TTL   3 option length
            4 tos   5 tot_hdr   6 quirks   7 MSS   8 window   9 scale   10 payload   11 peer MSS   12 multiplier
            20 layout count   21 to 25 kinds   26 to 30 bytes
   options  0 answer (1 parsed, 8 refused)   1 malformed   2 MSS   3 scale   20 to 30 layout
   walk     0 answer (1 walked, 8 refused)   1 malformed   2 MSS   3 scale   4 quirks   20 to 30 layout
            5 place of the first option past the end   6 of the first of a short length (65536 + offset, 0 if there is none)
   search   0 answer (65536 none, 131072 + label exact, 196608 + label fuzzy, or the refusal)
            1 index of refusal 10   2 hops   3 added   4 missing   5 the number of the record, from 0   6 whether it is generic
            7 how many records were examined: up to the specific exact one that ended the search, else all; 0 beside a refusal
   line     0 answer (1 read, 13 refused)   1 offset   2 to 4 the record   20 to 30 layout
   written  0 answer (1 written, or the refusal)   1 length   2 index of refusal 10   3 the bytes of the line as one number
            4 the same of a buffer of the line's length   5 to 7 answer there, in one of a byte less, of some bytes less
            8 how many bytes were changed that should not have been   9 whether the line is read (1, or 13)
            10 to 12 the record that is read of it   20 to 30 layout
   hops     0 the hop distance that is reported for two TTLs of three bytes
   ttl      0 the form of a byte's reading (0 value, 1 distance, 3 bad)   1 its byte   2 its distance   3 the byte's guess */
#ifndef NUMBERS_H
#define NUMBERS_H

#include <stddef.h>
#include <stdint.h>

enum { NUMBERS = 31, OBSERVATION = 110, RECORD = 24 };

typedef struct {
    uint64_t n[NUMBERS];
} Numbers;

/* mode: its bits (tools/witness/witness.h). */
void port_packet(const uint8_t *p, size_t size, uint16_t peer, uint8_t mode, Numbers *out);
void port_options(const uint8_t *s, size_t size, Numbers *out);
void port_walk(const uint8_t *s, size_t size, uint8_t stop, int syn, Numbers *out); /* stop: bits, too */
void port_search(const uint8_t *observation, const uint8_t *list, size_t size, Numbers *out);

void port_hops(const uint8_t ttls[6], Numbers *out);
void port_ttl(uint8_t byte, Numbers *out);
void port_line(const uint8_t *s, size_t size, Numbers *out);

/* present: whether the original is told of a peer at all; with 0 that makes no difference.
   Of a SYN or SYN+ACK the observation goes to observation, if that is not null. */
void oracle_packet(const uint8_t *p, size_t size, uint16_t peer, int present, Numbers *out, uint8_t *observation);
void oracle_options(const uint8_t *s, size_t size, Numbers *out);

/* Gives what stands before the record that is found, and fits too: bits of Passed. */
typedef enum { PASSED_GENERIC = 1, PASSED_FUZZY = 2 } Passed;
int oracle_search(const uint8_t *observation, const uint8_t *list, size_t size, Numbers *out);

void oracle_hops(const uint8_t ttls[6], Numbers *out);
void oracle_ttl(uint8_t byte, Numbers *out);

/* The documents' tables in C, written from their text alone. */
int table_packet(const uint8_t *p, size_t size, uint8_t *flags);
int table_strict(const uint8_t *p, size_t size);
int table_list(const uint8_t *list, size_t size, size_t *index);
void tcp_part(const uint8_t *p, size_t size, size_t *start, size_t *end);

static inline unsigned be16_at(const uint8_t *p) { return p[0] * 256u + p[1]; }
static inline uint32_t be32_at(const uint8_t *p) { return (uint32_t)be16_at(p) * 65536u + be16_at(p + 2); }

#endif
