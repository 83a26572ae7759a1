/* The C limit: the observation, the search and the list check of include/termread.h in as few instructions as C by hand was found to
   take. A measuring stick, not a product: nothing here is proved, and limit_answer_checked trusts the list. See README.md. */
#ifndef LIMIT_H
#define LIMIT_H

#include <stddef.h>
#include <stdint.h>

#include "termread.h"

/* What the TTL byte of a packet is taken for. */
typedef struct {
    uint8_t form; /* 0 value, 1 distance, 3 bad */
    uint8_t byte;
    uint8_t hops; /* of a distance, else 0 */
    uint8_t zero;
} limit_ttl;

/* An observation. A number that may be absent is 0 then. */
typedef struct {
    uint8_t kinds[40];   /* the layout: each option's kind, */
    uint8_t bytes[40];   /* and the bytes left after kind 0; from `count` on both are 0 */
    uint16_t mss;
    uint16_t peer_mss;   /* 0 is absent */
    uint8_t has_mss;     /* 0 or 1 */
    uint8_t scale[2];    /* 1 and the scale; both 0 if there is none */
    uint8_t version;     /* 4 or 6 */
    uint8_t olen;
    uint32_t count;
    uint32_t quirks;
    limit_ttl ttl;
    uint16_t wsize;
    uint16_t tot_hdr;
    uint8_t pclass;      /* 0 or 1 */
    uint8_t tos;
} limit_observation;

/* The observation of a packet in the plain mode: 1 SYN, 2 SYN+ACK, 3 nothing, 4 refused. Beside the last two it is empty: all 0, but for
   the version, which is 4. */
uint8_t limit_read(const uint8_t *packet, size_t size, uint16_t peer, limit_observation *seen);

/* As termread_answer_checked, but only on a list that limit_check_list finds good: its bytes are trusted. */
termread_result limit_answer_checked(const uint8_t *packet, size_t size, uint16_t peer, const uint8_t *list, size_t length);

/* As termread_answer and termread_check_list, on any bytes. */
termread_result limit_answer(const uint8_t *packet, size_t size, uint16_t peer, const uint8_t *list, size_t length);
termread_result limit_check_list(const uint8_t *list, size_t length);

#endif
