/* Bundles, and what may befall one. */
#include "fuzz.h"

#include <string.h>

static void put16(uint8_t *p, size_t n) { p[0] = (uint8_t)(n >> 8), p[1] = (uint8_t)n; }

static void append(Input *input, const uint8_t *bytes, size_t n) {
    if (input->size + n > INPUT_MOST) return;
    memcpy(input->bytes + input->size, bytes, n);
    input->size += n;
}

static void append_gap(Random *r, Input *input) {
    uint8_t gap[9];
    size_t i, n = chance(r, 20) ? below(r, 10) : 0;
    for (i = 0; i < n; i++) gap[i] = byte_of(r);
    append(input, gap, n);
}

/* A packet that gives an observation, its size, and the observation. */
static size_t observed_packet(Random *r, uint8_t *p, uint16_t *peer, uint8_t *o) {
    size_t size;
    Numbers n;
    do {
        size = make_packet(r, p);
        *peer = make_peer(r);
        oracle_packet(p, size, *peer, 0, &n, o);
    } while (n.n[0] > 2);
    return size;
}

static void append_packet(Random *r, Input *input, const uint8_t *base, size_t base_size, uint16_t peer) {
    uint8_t p[PACKET_MOST + 64] = {0}, head[4];
    size_t size = base_size;
    uint32_t kind = below(r, 100);
    memcpy(p, base, base_size);
    if (kind >= 50) peer = make_peer(r);
    if (kind >= 30 && kind < 50) p[p[0] >> 4 == 4 ? 8 : 7] = byte_of(r);
    else if (kind >= 50 && kind < 70) size = make_packet(r, p);
    else if (kind >= 70 && kind < 93) size = make_packet(r, p), size = damage_packet(r, p, size);
    else if (kind >= 93) size = below(r, (uint32_t)base_size + 1);
    put16(head, peer), put16(head + 2, size);
    append(input, head, 4);
    append(input, p, size);
}

static unsigned packet_count(Random *r) {
    uint32_t kind = below(r, 100);
    if (kind < 4) return 0;
    if (kind < 70) return 1 + below(r, 8);
    if (kind < 96) return 8 + below(r, 40);
    return 100 + below(r, 800);
}

static void append_packets(Random *r, Input *input, const uint8_t *base, size_t size, uint16_t peer) {
    static const uint8_t nothing[4];
    unsigned i, count = packet_count(r), empty = chance(r, 1) ? below(r, 12000) : 0;
    put16(input->bytes + 2, input->size);
    for (i = 0; i < count && input->size + 400 < BUNDLE_MOST; i++) append_packet(r, input, base, size, peer);
    for (count = i; count < i + empty && input->size + 4 < BUNDLE_MOST; count++) append(input, nothing, 4);
    put16(input->bytes, count);
}

static void append_list(Random *r, Input *input, const uint8_t *o) {
    uint8_t list[LIST_MOST];
    size_t size = make_list(r, o, chance(r, 97) ? 1 + below(r, RECORDS_MOST - 1) : 0, below(r, 4), list);
    if (chance(r, 6)) size = damage_list(r, list, size);
    put16(input->bytes + 4, size), put16(input->bytes + 6, input->size);
    append(input, list, size);
}

/* ---- mutations */

static size_t limit(Random *r, size_t size) {
    const size_t limits[] = {0, 1, 4, 7, 8, 24, size - 8, size - 4, size - 1, size, size + 1, 255, 256, 65534, 65535};
    return limits[below(r, sizeof limits / sizeof limits[0])] & 65535;
}

static void move_block(Random *r, Input *input) {
    size_t from = below(r, (uint32_t)input->size), to = below(r, (uint32_t)input->size), n = 1 + below(r, 64);
    if (from + n > input->size) n = input->size - from;
    if (to + n > input->size) n = input->size - to;
    memmove(input->bytes + to, input->bytes + from, n);
}

static void insert_or_delete(Random *r, Input *input) {
    size_t at = below(r, (uint32_t)input->size), n = 1 + below(r, 4);
    uint8_t *place = input->bytes + at;
    if (chance(r, 50) && at + n <= input->size) {
        memmove(place, place + n, input->size - at - n);
        input->size -= n;
    } else if (input->size + n <= INPUT_MOST) {
        memmove(place + n, place, input->size - at);
        memset(place, byte_of(r), n);
        input->size += n;
    }
}

/* Up to the most that a bundle may have, one byte more, or far more. */
static void lengthen(Random *r, Input *input) {
    const size_t sizes[] = {BUNDLE_MOST - 1, BUNDLE_MOST, BUNDLE_MOST + 1, INPUT_MOST};
    size_t size = chance(r, 60) ? input->size + below(r, 40) : sizes[below(r, 4)];
    for (; input->size < size && input->size < INPUT_MOST; input->size++) input->bytes[input->size] = (uint8_t)draw(r);
}

static void mutate(Random *r, Input *input) {
    size_t size = input->size;
    if (size < 8) return;
    switch (below(r, 12)) {
    case 0: case 1: case 2: input->bytes[below(r, (uint32_t)size)] = byte_of(r); break;
    case 3: input->bytes[below(r, (uint32_t)size)] ^= (uint8_t)(1u << below(r, 8)); break;
    case 4: input->bytes[below(r, 8)] = byte_of(r); break;
    case 5: put16(input->bytes + 2 * below(r, 4), limit(r, size)); break;
    case 6: put16(input->bytes + below(r, (uint32_t)size - 1), limit(r, size)); break;
    case 7: input->size = below(r, (uint32_t)size + 1); break;
    case 8: lengthen(r, input); break;
    case 9: move_block(r, input); break;
    case 10: put16(input->bytes + 2, be16_at(input->bytes + 6)); break;
    default: insert_or_delete(r, input);
    }
}

int make_input(Random *r, Input *input) {
    uint8_t base[PACKET_MOST], o[OBSERVATION];
    uint16_t peer;
    size_t size = observed_packet(r, base, &peer, o);
    unsigned i, times = chance(r, 60) ? 1 + below(r, 3) : 0;
    int list_first = chance(r, 70);
    memset(input->bytes, 0, 8);
    input->size = 8;
    append_gap(r, input);
    if (list_first) append_list(r, input, o);
    append_gap(r, input);
    append_packets(r, input, base, size, peer);
    if (!list_first) append_gap(r, input);
    if (!list_first) append_list(r, input, o);
    for (i = 0; i < times; i++) mutate(r, input);
    return times > 0;
}
