/* What crates/witness gives and takes, for C drivers; not part of the product. Each struct is that of the source, field by field. */
#ifndef WITNESS_H
#define WITNESS_H

#include <stdbool.h>
#include <stddef.h>
#include <stdint.h>

/* An observation, as numbers. A value that may be absent is 0 then, and its `has_` is 0; else that is 1. */
typedef struct {
    uint64_t count;       /* entries of the layout; those past 40 are not held */
    uint32_t quirks;
    uint16_t mss;
    uint16_t wsize;
    uint16_t peer_mss;
    uint16_t tot_hdr;
    uint16_t multiple;    /* the window's multiplier: given, never taken */
    uint8_t multiple_of;  /* 0 no multiplier, 1 of the MSS, 2 of the MTU */
    uint8_t version;      /* 4 or 6; taken, anything else is 4 */
    uint8_t ttl_form;     /* 0 value, 1 distance, 2 guess, 3 bad; taken, anything else is 3 */
    uint8_t ttl;
    uint8_t hops;         /* of a distance */
    uint8_t olen;
    uint8_t tos;
    uint8_t wscale;
    uint8_t pclass;       /* 0 or 1 */
    uint8_t has_mss;
    uint8_t has_wscale;
    uint8_t has_peer_mss;
    uint8_t kinds[40];
    uint8_t bytes[40];
} witness_observation;

/* The reading of a packet. */
typedef struct {
    witness_observation observation; /* of a refused packet, or one that is nothing, what its reading holds */
    uint8_t answer;                  /* 1 SYN, 2 SYN+ACK, 3 nothing, 4 refused */
    uint8_t refusal;                 /* its number, else 0 */
    uint8_t flags;                   /* of refusal 7 */
} witness_packet_read;

/* What is parsed of an option string. */
typedef struct {
    uint64_t count;
    uint16_t mss;
    uint8_t refusal; /* 8, else 0 */
    uint8_t malformed;
    uint8_t has_mss;
    uint8_t has_wscale;
    uint8_t wscale;
    uint8_t kinds[40];
    uint8_t bytes[40];
} witness_options_read;

/* What a walk over an option string gives. The places are offsets of an option's kind byte, from 0: of the first option that runs past the
   end, of the first whose length byte is 0 or 1; of a walk that stops, those that it came to. */
typedef struct {
    uint64_t count;
    uint64_t past_at;
    uint64_t short_at;
    uint32_t quirks;
    uint16_t mss;
    uint8_t refusal;   /* 8, else 0 */
    uint8_t malformed; /* it stopped */
    uint8_t has_past;
    uint8_t has_short;
    uint8_t has_mss;
    uint8_t has_wscale;
    uint8_t wscale;
    uint8_t kinds[40];
    uint8_t bytes[40];
} witness_walk_read;

/* What a search answers. */
typedef struct {
    uint32_t added;      /* the reason of a fuzzy answer, all bits */
    uint32_t missing;
    uint32_t bad_record; /* of refusal 10 */
    uint16_t label;      /* of exact and fuzzy */
    uint16_t number;     /* of the record, from 0: of exact and fuzzy */
    uint16_t examined;   /* how many records: up to the specific exact one that ended the search, else all; 0 beside a refusal */
    uint8_t outcome;     /* 1 exact, 2 fuzzy, 3 none, 5 refused, as for C */
    uint8_t refusal;     /* 9, 10 or 11, else 0 */
    uint8_t far;         /* 1 if the TTL is out of range */
    uint8_t hops;        /* the hop distance then */
    uint8_t generic;     /* 1 if the record is generic: of exact and fuzzy */
} witness_search_read;

/* What is read of a signature line. */
typedef struct {
    uint64_t count;   /* entries of the layout */
    uint64_t offset;  /* of refusal 13: the first byte at which no line goes on, else 0 */
    uint8_t refusal;  /* 13, else 0 */
    uint8_t raw[24];  /* the record, as in a signature list; with its layout empty beside a refusal */
    uint8_t kinds[40];
    uint8_t bytes[40];
} witness_line_read;

/* The entry of a TTL byte in the table of all of them. */
typedef struct {
    uint8_t class; /* 0 value, 1 distance, 3 bad */
    uint8_t guess; /* the hops up to 32, 64, 128 or 255, of every byte */
} witness_ttl_entry;

/* What writing a line answers: its length, or the refusal. */
typedef struct {
    uint64_t length;     /* bytes written from the buffer's start on; 0 beside a refusal */
    uint32_t bad_record; /* of refusal 10 */
    uint8_t refusal;     /* 9, 10, 11, 15 or 23, else 0 */
} witness_wrote;

/* As many bytes as the source's structs have, by C's layout on x86-64. */
typedef char witness_structs_have_their_sizes[sizeof(witness_observation) == 120 && sizeof(witness_packet_read) == 128 &&
                                              sizeof(witness_options_read) == 96 && sizeof(witness_walk_read) == 120 &&
                                              sizeof(witness_search_read) == 24 && sizeof(witness_line_read) == 128 &&
                                              sizeof(witness_ttl_entry) == 2 && sizeof(witness_wrote) == 16 ? 1 : -1];

/* The bits of a mode: none for the plain reading; what is not named here is not read. */
enum {
    WITNESS_PLAIN = 0,
    WITNESS_STRICT = 1 /* a TCP header whose data offset contradicts it is refused: 14; the walk stops before damaged options */
};

/* Which options a walk stops before, bits too. */
enum {
    WITNESS_NOTHING = 0, /* the packet reader's walk */
    WITNESS_PAST = 1,    /* an option that runs past the end: the option-string reader's */
    WITNESS_SHORT = 2,   /* one whose length byte is 0 or 1 */
    WITNESS_DAMAGE = 3   /* either: the strict mode's */
};

/* The reading of a packet in a mode; a peer's MSS of 0 is an absent one. */
witness_packet_read witness_packet(const uint8_t *packet, size_t length, uint16_t peer_mss, uint8_t mode);

witness_options_read witness_options(const uint8_t *options, size_t length);

/* The walk of an option string, as of a SYN or not, from no quirks. */
witness_walk_read witness_walk(const uint8_t *options, size_t length, uint8_t stop, bool syn);

/* The search of a list for an observation. */
witness_search_read witness_search(witness_observation observation, const uint8_t *list, size_t length);

witness_ttl_entry witness_ttl(uint8_t ttl);

/* The hop distance that is reported for two TTLs of three bytes each (form, TTL, distance): an observed one, then a signature's. */
uint8_t witness_hops(const uint8_t *ttls, size_t length);

/* The reading of a line of p0f's text form, without its line end. */
witness_line_read witness_line(const uint8_t *line, size_t length);

/* The raw line of an observation; and the line of record `index` of a list. Bytes past the length, and all on a refusal, stay as they
   were. */
witness_wrote witness_raw(uint8_t *buffer, size_t room, witness_observation observation);
witness_wrote witness_record(uint8_t *buffer, size_t room, const uint8_t *list, size_t length, size_t index);

/* How far the output of a bundle is: the bytes of the page, and the packets that are left, by their number and the place of the first. */
typedef struct {
    size_t filled;
    size_t left;
    size_t at;
} witness_progress;

/* The first page of a bundle's output in a mode, and the next one after a progress, in the same mode; a page is 4,096 bytes. The output
   ends where none is left. */
witness_progress witness_first_page(const uint8_t *bundle, size_t length, uint8_t *page, uint8_t mode);
witness_progress witness_next_page(const uint8_t *bundle, size_t length, witness_progress progress, uint8_t *page, uint8_t mode);

#endif
