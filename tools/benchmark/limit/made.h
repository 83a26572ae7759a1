/* Packets and lists for `same`: changed ones, and ones that are made up, by a generator with a fixed seed: every run is the same. */
#ifndef LIMIT_MADE_H
#define LIMIT_MADE_H

#include <stddef.h>
#include <stdint.h>

#include "limit.h"

enum {
    MOST_PACKET = 2048,
    MOST_LIST = 8192
};

/* A number below a bound. */
uint32_t below(uint32_t bound);

/* 0, 536, 1460, about 12, or any. */
uint16_t made_peer(void);

/* From valid headers: options, flags, lengths and all else by chance, but so that most are a SYN or SYN+ACK. Its size. */
size_t made_packet(uint8_t *packet);

/* One or two bytes changed, shorter, longer, or the options filled by chance. Its size. */
size_t changed(uint8_t *bytes, size_t size, size_t most);

/* A window that is, or nearly is, a multiple of something that what was seen may make it one of. */
uint16_t made_window(const limit_observation *seen);

/* A well-formed list whose records are near what was seen, in one thing or another. Its size. */
size_t made_list(uint8_t *list, const limit_observation *seen);

/* Two records, of so many entries each, with so many in the area, all the same; the rest of it 0. Its size. */
size_t counted_list(uint8_t *list, uint8_t first, uint8_t second, uint8_t entries);

#endif
