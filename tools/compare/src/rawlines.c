/* The families of raw lines: of packets' observations, of ones that no packet need give. */
#include "families.h"
#include "make.h"
#include "tally.h"
#include "written.h"

#include <string.h>

static void put16(uint8_t *p, unsigned n) { p[0] = (uint8_t)(n >> 8), p[1] = (uint8_t)n; }

static void put32(uint8_t *p, uint32_t n) { put16(p, n >> 16), put16(p + 2, n & 65535); }

/* The port's own observation of a packet, with the window that stands in the packet. */
static void try_packet_line(const uint8_t *p, size_t size, uint16_t peer) {
    Numbers answer;
    uint8_t o[OBSERVATION];
    witness_packet_read read;
    size_t start, end;
    oracle_packet(p, size, peer, 0, &answer, o);
    if (answer.n[0] > 2) return;
    read = witness_packet(p, size, peer, WITNESS_PLAIN);
    tcp_part(p, size, &start, &end);
    try_raw_of(o, &read.observation, be16_at(p + start + 14));
}

static void packet_lines(unsigned share) {
    uint8_t p[PACKET_MOST];
    Random whole = {61}, damaged = {62};
    unsigned i;
    size_t size;
    family("raw lines of random packets", RAW_LINE);
    for (i = 0; i < 1000000 / share; i++) {
        size = make_packet(&whole, p);
        try_packet_line(p, size, make_peer(&whole));
    }
    family("raw lines of random packets, damaged", RAW_LINE);
    for (i = 0; i < 400000 / share; i++) {
        size = make_packet(&damaged, p);
        size = damage_packet(&damaged, p, size);
        try_packet_line(p, size, make_peer(&damaged));
    }
}

static void plain_observation(uint8_t *o, unsigned version) {
    memset(o, 0, OBSERVATION);
    o[0] = (uint8_t)version, o[2] = 64;
}

static void every_ttl(void) {
    static const uint8_t hops[] = {0, 1, 9, 10, 31, 99, 100, 255};
    uint8_t o[OBSERVATION];
    unsigned ttl, form, h;
    family("every TTL byte in every form, 8 distances, every option length", RAW_LINE);
    for (ttl = 0; ttl < 256; ttl++)
        for (form = 0; form < 4; form++)
            for (h = 0; h < 8; h++) {
                plain_observation(o, h % 2 ? 4 : 6);
                o[1] = (uint8_t)form, o[2] = (uint8_t)ttl, o[3] = form == 1 ? hops[h] : 0, o[4] = (uint8_t)(ttl + 32 * h);
                try_raw(o, 0);
            }
}

/* A window that is a multiple of the MSS or of 1460 or 1500 is one in the original's line. */
static void every_word(void) {
    uint8_t o[OBSERVATION];
    unsigned n, scale;
    family("every window, every MSS, every scale with it, present and absent", RAW_LINE);
    for (n = 0; n < 65536; n++) {
        scale = n % 257;
        plain_observation(o, 4);
        put16(o + 8, n);
        if (n % 3) o[5] = 1, put16(o + 6, 1460);
        if (scale < 256) o[12] = 1, o[13] = (uint8_t)scale;
        try_raw(o, n);
        put16(o + 8, 2 * n), o[5] = 1, put16(o + 6, n), o[99] = n % 2;
        try_raw(o, 2 * n % 65536);
    }
}

static void every_entry(void) {
    static const uint8_t kinds[] = {0, 1, 2, 3, 4, 5, 6, 8, 9, 10, 99, 100, 255}, left[] = {0, 9, 10, 255};
    uint8_t o[OBSERVATION];
    unsigned kind, count, i, byte;
    family("every kind with 4 bytes beside it, each count up to 60 of 13 kinds", RAW_LINE);
    for (kind = 0; kind < 256; kind++)
        for (byte = 0; byte < 4; byte++) {
            plain_observation(o, 4);
            o[14] = 2, o[15] = (uint8_t)kind, o[16] = (uint8_t)(kind + 1), o[55] = left[byte], o[56] = left[3 - byte];
            try_raw(o, 0);
        }
    for (i = 0; i < sizeof kinds; i++)
        for (count = 0; count <= 60; count++) {
            plain_observation(o, 6);
            memset(o + 15, kinds[i], 40);
            if (!kinds[i]) memset(o + 55, left[count % 4], 40);
            o[14] = (uint8_t)count;
            try_raw(o, 0);
        }
}

static void every_quirk(void) {
    uint8_t o[OBSERVATION];
    unsigned a, b;
    family("every one and two of 32 quirk bits, all but each, with either payload", RAW_LINE);
    for (a = 0; a < 32; a++)
        for (b = 0; b < 64; b++) {
            plain_observation(o, 4);
            put32(o + 95, b < 32 ? UINT32_C(1) << a | UINT32_C(1) << b : ~(UINT32_C(1) << a) & ~(UINT32_C(1) << b % 32));
            o[99] = (uint8_t)((a + b) % 2);
            try_raw(o, 0);
        }
}

/* The longest line, and what is one digit or word shorter. */
static void longest_lines(void) {
    uint8_t o[OBSERVATION];
    int i;
    family("the longest raw line, and shorter by one thing", RAW_LINE);
    for (i = 0; i < 9; i++) {
        plain_observation(o, 4);
        o[1] = i == 1 ? 2 : 1, o[2] = i == 2 ? 99 : 255, o[3] = o[1] == 1 ? 255 : 0, o[4] = i == 3 ? 99 : 255;
        o[5] = i != 4, put16(o + 6, i == 4 ? 0 : 65535), put16(o + 8, i == 5 ? 9999 : 65534);
        o[12] = i != 6, o[13] = i == 6 ? 0 : 255, o[14] = i == 7 ? 39 : 40;
        memset(o + 55, 255, 40);
        put32(o + 95, i == 8 ? UINT32_C(0x1F03F03D) : UINT32_MAX);
        try_raw(o, be16_at(o + 8));
    }
}

/* Any bits, any bytes, more often ones that say something. */
static void random_observation(Random *r, uint8_t *o) {
    unsigned i;
    make_observation(r, o);
    if (o[14] > 40 || chance(r, 50)) o[14] = (uint8_t)below(r, 41);
    if (chance(r, 30)) put16(o + 8, be16_at(o + 6) * (1 + below(r, 8)));
    if (chance(r, 20)) put32(o + 95, draw(r) ^ draw(r) << 16);
    for (i = 0; i < 40; i++) {
        o[15 + i] = byte_of(r);
        o[55 + i] = chance(r, 50) ? 0 : byte_of(r);
    }
}

static void random_lines(unsigned share) {
    uint8_t o[OBSERVATION];
    witness_observation given;
    Random r = {63}, over = {64};
    unsigned i;
    family("random observations of every form, 0 to 40 entries of any kind", RAW_LINE);
    for (i = 0; i < 1200000 / share; i++) {
        random_observation(&r, o);
        try_raw(o, be16_at(o + 8));
    }
    family("random observations of over 40 entries", RAW_LINE);
    for (i = 0; i < 50000 / share; i++) {
        random_observation(&over, o);
        o[14] = 41;
        given = observation_of(o);
        given.count = 41 + (chance(&over, 60) ? below(&over, 220) : (uint64_t)draw(&over) << below(&over, 33));
        try_raw_of(o, &given, 0);
    }
}

void raw_line_families(unsigned share) {
    packet_lines(share);
    every_ttl();
    every_word();
    every_entry();
    every_quirk();
    longest_lines();
    random_lines(share);
}
