/* The original's answers, in bytes of fixed length. Numbers of more than one byte are big-endian;
   what is absent or unused is 0. Link with liboracle.a (static, x86-64).

   An observation, 110 bytes:
     0 version, 4 or 6      1 TTL form: 0 Value, 1 Distance, 2 Guess, 3 Bad      2 TTL      3 distance
     4 option length        5 MSS present    6 MSS (2)       8 window (2)       10 tot_hdr (2)
    12 scale present       13 scale         14 layout count
    15 kinds (40)          55 bytes (40): what is left after an end of options, else 0
    95 quirks (4)          99 payload: 0 empty, 1 not
   100 peer MSS present   101 peer MSS (2)  103 tos
   104 window multiplier: 0 none, 1 of MSS, 2 of MTU       105 multiple (2)       107 zero (3)
   Kinds: 0 end, 1 no-op, 2 MSS, 3 scale, 4 SACK permitted, 5 SACK, 8 timestamps, else unknown.

   A TTL, 3 bytes: form, TTL, distance, as above.
   A record, 24 bytes, and its layout entries, two bytes each, are those of a signature list. */

#ifndef ORIGINAL_H
#define ORIGINAL_H

#include <stddef.h>
#include <stdint.h>

/* out: 0 answer, then an observation if the answer is 1 or 2.
   Answers: 0 nothing, 1 SYN, 2 SYN+ACK, 3 UnsupportedProtocol, 4 UnexpectedPackage, 5 InvalidTcpFlags
   (then out[1] is the flags byte), 6 any other error, or no packet: not version 4 or 6, or too short. */
void original_observe(const uint8_t *packet, size_t length, uint8_t peer_present, uint16_t peer_mss, uint8_t out[111]);

/* out: 0 malformed, 1 MSS present, 2 MSS (2), 4 scale present, 5 scale, 6 layout count, 7 kinds (40),
   47 bytes (40). Of a longer layout than 40, which only a longer string has, the first 40 are given. */
void original_parse_options(const uint8_t *options, size_t length, uint8_t out[87]);

/* entries: record[20] layout entries, the record's own. out: 0 none 0, exact 1, fuzzy 2; 1 hop distance
   reported, 2 hop distance (4), 6 added quirks (4), 10 missing quirks (4).
   Gives 0, or 1 (and all zero) if record or observation holds a code that is not listed. */
int original_fit(const uint8_t record[24], const uint8_t *entries, const uint8_t observation[110], uint8_t out[14]);

/* out: as at 104 of an observation; bytes from 104 on are not read. Gives 0, or 1 as above. */
int original_window_multiplier(const uint8_t observation[110], uint8_t out[3]);

/* out: 0 fits, 1 out of range, 2 hop distance (4). Gives 0, or 1 for a form that is not listed. */
int original_ttl_fit(const uint8_t observed[3], const uint8_t signature[3], uint8_t out[6]);

/* The hop distance, or -1 for a form that is not listed. */
int original_report_hop_distance(const uint8_t observed[3], const uint8_t signature[3]);

void original_calculate_ttl(uint8_t ttl, uint8_t out[3]);
uint8_t original_guess_distance(uint8_t ttl);

/* Length of IPv4 options or IPv6 extension headers; -1 if there is no packet. */
int original_option_length(const uint8_t *packet, size_t length);

/* A signature in p0f's text form. Gives 0, 1 if the original refuses the line, or 2 if a record cannot
   hold it (over 40 entries, or an unknown kind that has a name); then record and entries are zero. */
int original_parse_signature(const uint8_t *line, size_t length, uint8_t record[24], uint8_t entries[80]);

/* A line in p0f's text form, whatever it says. Gives 0, 1 if the original refuses it, or 2 if it is not UTF-8 and cannot be asked.
   count: the entries of its layout, any number (in the record modulo 256). rows: kinds, bytes, and 1 for an unknown kind that has a
   name, three rows of room bytes, of as many entries as there is room for. Where it is not read all is zero. */
int original_line(const uint8_t *line, size_t length, uint8_t record[24], uint8_t *rows, size_t room, size_t *count);

/* The text of an observation, by the original's Display; bytes from 104 on are not read. length is the text's, text holds as much of it
   as there is room for. Gives 0, or 1 (and length 0) if the observation holds a code that is not listed, or over 40 entries. */
int original_write_observation(const uint8_t observation[110], uint8_t *text, size_t room, size_t *length);

/* The text of a record: the Displays of its parts, with an observation's separators; entries as for original_fit. Gives 0 or 1 as above. */
int original_write_record(const uint8_t record[24], const uint8_t *entries, uint8_t *text, size_t room, size_t *length);

#endif
