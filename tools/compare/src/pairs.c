/* Demand 3, in both modes: pairs of packets that differ only in the free bytes that document 01 lists. */
#include "damage.h"
#include "families.h"
#include "make.h"
#include "tally.h"
#include "../../witness/witness.h"

#include <string.h>

static void shake(Random *r, uint8_t *p, size_t from, size_t to, size_t size) {
    for (; from < to && from < size; from++)
        if (chance(r, 60)) p[from] = (uint8_t)draw(r);
}

/* So many bytes with a mask for the first, anew but zero where they were zero and nonzero where they were not. */
static void keep_zero(Random *r, uint8_t *p, size_t n, uint8_t first) {
    size_t i;
    int zero = (p[0] & first) == 0;
    for (i = 1; i < n; i++) zero = zero && p[i] == 0;
    if (zero) return;
    do {
        p[0] = (uint8_t)((p[0] & ~first) | (draw(r) & first));
        for (i = 1; i < n; i++) p[i] = chance(r, 50) ? 0 : (uint8_t)draw(r);
        for (zero = (p[0] & first) == 0, i = 1; i < n; i++) zero = zero && p[i] == 0;
    } while (zero);
}

/* The halves of each timestamps option that the walk reaches, where they are wholly present. */
static void stamps(Random *r, uint8_t *s, size_t size) {
    size_t at = 0, own;
    while (at < size && s[at] != 0) {
        if (s[at] == 1) {
            at++;
            continue;
        }
        own = at + 1 < size && s[at + 1] > 2 ? s[at + 1] : 2;
        if (own > size - at) own = size - at;
        if (s[at] == 8 && own >= 6) keep_zero(r, s + at + 2, 4, 255);
        if (s[at] == 8 && own >= 10) keep_zero(r, s + at + 6, 4, 255);
        at += own;
    }
}

static void free_tcp(Random *r, uint8_t *p, size_t start, size_t end) {
    uint8_t *t = p + start;
    size_t size = end - start, data = 4u * (t[12] >> 4), options = data < size ? data : size;
    shake(r, t, 0, 4, size);
    shake(r, t, 16, 18, size);
    t[12] = (uint8_t)((t[12] & 0xf0) | (draw(r) & 15));
    keep_zero(r, t + 4, 4, 255);
    keep_zero(r, t + 8, 4, 255);
    keep_zero(r, t + 18, 2, 255);
    if (options > 20) stamps(r, t + 20, options - 20);
    shake(r, t, data > 20 ? data : 20, size, size);
}

static void free_bytes(Random *r, uint8_t *p, size_t size) {
    size_t start, end, header, stated;
    if (size == 0 || (p[0] >> 4 != 4 && p[0] >> 4 != 6)) return;
    if (size < (p[0] >> 4 == 4 ? 20u : 40u)) return;
    tcp_part(p, size, &start, &end);
    if (p[0] >> 4 == 4) {
        header = start < 20 ? 20 : start, stated = be16_at(p + 2);
        shake(r, p, 10, 20, size);
        shake(r, p, 20, header, size);
        keep_zero(r, p + 4, 2, 255);
    } else {
        header = 40, stated = 40u + be16_at(p + 4);
        shake(r, p, 8, 40, size);
        keep_zero(r, p + 1, 3, 15);
    }
    shake(r, p, header > stated ? header : stated, size, size);
    if (start >= 20 && end - start >= 20) free_tcp(r, p, start, end);
}

/* The option strings of both, where they have a whole TCP header: alike packets have the same places of damage. */
static void same_places(const uint8_t *p, const uint8_t *q, size_t size) {
    const uint8_t *options;
    Numbers walks[2];
    uint8_t flags;
    size_t n;
    int row = table_packet(p, size, &flags);
    if (row >= 1 && row <= 6) return;
    n = packet_options(p, size, &options);
    port_walk(options, n, WITNESS_NOTHING, 1, &walks[0]);
    n = packet_options(q, size, &options);
    port_walk(options, n, WITNESS_NOTHING, 1, &walks[1]);
    try_walk_pair(&walks[0], &walks[1], p, size);
}

static void one_pair(Random *r, int damaged) {
    uint8_t p[PACKET_MOST], q[PACKET_MOST], o[2][OBSERVATION], list[LIST_MOST];
    Numbers a, b, first;
    size_t size = make_packet(r, p), listed;
    uint16_t peer = make_peer(r);
    if (damaged) size = damage_packet(r, p, size);
    memcpy(q, p, sizeof q);
    free_bytes(r, q, size);
    same_places(p, q, size);
    port_packet(p, size, peer, WITNESS_STRICT, &a);
    port_packet(q, size, peer, WITNESS_STRICT, &b);
    try_strict_pair(&a, &b, p, size);
    port_packet(p, size, peer, WITNESS_PLAIN, &a);
    port_packet(q, size, peer, WITNESS_PLAIN, &b);
    try_pair(&a, &b, p, size);
    if (a.n[0] > 2) return;
    oracle_packet(p, size, peer, 0, &first, o[0]);
    oracle_packet(q, size, peer, 0, &b, o[1]);
    try_pair(&a, &b, p, size); /* the second packet's answer by the original */
    listed = make_list(r, o[0], 3, 2, list);
    port_search(o[0], list, listed, &a);
    port_search(o[1], list, listed, &b);
    try_pair(&a, &b, p, size);
}

void pair_families(unsigned share) {
    Random r = {11};
    unsigned i;
    family("pairs that differ in free bytes only: readings, the original's reading, searches", PAIR);
    for (i = 0; i < 500000 / share; i++) one_pair(&r, 0);
    family("the same, damaged before", PAIR);
    for (i = 0; i < 500000 / share; i++) one_pair(&r, 1);
}
