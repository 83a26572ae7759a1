/* The walk over TCP options, for observe.c and search.c. */
#ifndef LIMIT_OPTIONS_H
#define LIMIT_OPTIONS_H

#include <stddef.h>
#include <stdint.h>

#include "bytes.h"
#include "limit.h"

/* Kind and size of the usual options, as low16 reads them. */
enum {
    MSS_OF_4 = 0x0402,
    SCALE_OF_3 = 0x0303,
    SACK_PERMITTED_OF_2 = 0x0204,
    STAMPS_OF_10 = 0x0a08
};

/* Where the walk is: its place, that of the next entry of the layout, and the quirks so far. An entry is a kind and `apart` bytes behind
   it the bytes left; the next one is `step` bytes on. */
typedef struct {
    const uint8_t *at;
    uint8_t *out;
    uint32_t quirks;
    int stamped; /* there is a timestamps option */
} walking;

static inline uint32_t quirks_behind_end(const uint8_t *at, const uint8_t *end)
{
    for (; at != end; at++)
        if (*at != 0)
            return TERMREAD_QUIRK_TRAILING_NONZERO;
    return 0;
}

static inline uint32_t quirks_of_stamps(const uint8_t *at, size_t size, int syn)
{
    uint32_t quirks = size >= 6 && low32(at + 2) == 0 ? TERMREAD_QUIRK_OWN_TIMESTAMP_ZERO : 0;
    return size >= 10 && syn && low32(at + 6) != 0 ? quirks | TERMREAD_QUIRK_PEER_TIMESTAMP_NONZERO : quirks;
}

/* An option of any kind but 0 and 1 and of any size, of which at least two bytes are there; its size, clipped. */
static inline size_t any_option(const uint8_t *at, size_t room, unsigned both, int syn, limit_observation *seen, walking *walk)
{
    unsigned kind = both & 0xff;
    size_t size = both >> 8 < 2 ? 2 : both >> 8;
    size = size < room ? size : room;
    if (kind == 2 && size >= 4) {
        seen->mss = high16(at + 2);
        seen->has_mss = 1;
    }
    if (kind == 3 && size >= 3) {
        seen->scale[0] = 1;
        seen->scale[1] = at[2];
        walk->quirks |= at[2] > 14 ? TERMREAD_QUIRK_EXCESSIVE_SCALE : 0;
    }
    if (kind == 8) {
        walk->stamped = 1;
        walk->quirks |= quirks_of_stamps(at, size, syn);
    }
    return size;
}

/* All of them up to the end. While two bytes are left, kind and size are read at once: an option of its usual size is known by one
   comparison. The kind is written before it is known. */
static inline void walk_options(const uint8_t *end, size_t step, size_t apart, int syn, limit_observation *seen, walking *walk)
{
    const uint8_t *at = walk->at;
    uint8_t *out = walk->out;
    for (; at < end - 1; out += step) {
        unsigned both = low16(at);
        out[0] = (uint8_t)both;
        if (apart == 1)
            out[apart] = 0;
        if ((uint8_t)both == 1) {
            at += 1;
        } else if (both == MSS_OF_4 && at + 4 <= end) {
            seen->mss = high16(at + 2);
            seen->has_mss = 1;
            at += 4;
        } else if (both == SACK_PERMITTED_OF_2) {
            at += 2;
        } else if (both == SCALE_OF_3 && at + 3 <= end && at[2] <= 14) {
            seen->scale[0] = 1;
            seen->scale[1] = at[2];
            at += 3;
        } else if (both == STAMPS_OF_10 && at + 10 <= end && low32(at + 2) != 0 && low32(at + 6) == 0) {
            walk->stamped = 1;
            at += 10;
        } else if ((uint8_t)both == 0) {
            out[apart] = (uint8_t)(end - at - 1);
            walk->quirks |= quirks_behind_end(at + 1, end);
            at = end;
        } else {
            at += any_option(at, (size_t)(end - at), both, syn, seen, walk);
        }
    }
    if (at == end - 1) {
        out[0] = *at;
        if (apart == 1)
            out[apart] = 0;
        walk->stamped |= *at == 8;
        out += step;
    }
    walk->out = out;
}

#endif
