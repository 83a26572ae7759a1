/* The families of packets. */
#include "families.h"
#include "make.h"
#include "tally.h"

#include <string.h>

static const uint16_t peers[3] = {0, 1460, 12};

static void every_byte(void) {
    uint8_t p[PACKET_MOST];
    int base, value, k;
    size_t size, i;
    family("every value of every byte of 12 base packets, 3 peers", PACKET);
    for (base = 0; base < BASES; base++) {
        size = base_packet(base, p);
        for (i = 0; i < size; i++) {
            uint8_t kept = p[i];
            for (value = 0; value < 256; value++)
                for (p[i] = (uint8_t)value, k = 0; k < 3; k++) try_packet(p, size, peers[k], NULL);
            p[i] = kept;
        }
    }
}

/* Every length, and every length with every IP length, up to 24 bytes past the end. */
static void every_length(void) {
    uint8_t p[PACKET_MOST] = {0};
    int base;
    size_t size, slice, stated;
    family("every slice x every IP length of 12 base packets", PACKET);
    for (base = 0; base < BASES; base++) {
        size = base_packet(base, p);
        memset(p + size, 0xa5, 24);
        for (slice = 0; slice <= size + 24; slice++) {
            for (stated = 0; stated <= size + 24; stated++) {
                size_t number = p[0] >> 4 == 4 ? stated : stated < 40 ? 65535 - stated : stated - 40;
                uint8_t *at = p + (p[0] >> 4 == 4 ? 2 : 4), kept[2] = {at[0], at[1]};
                at[0] = (uint8_t)(number >> 8), at[1] = (uint8_t)number;
                try_packet(p, slice, 0, NULL);
                at[0] = kept[0], at[1] = kept[1];
            }
        }
    }
}

static void every_flags(void) {
    uint8_t p[PACKET_MOST];
    static const int chosen[4] = {0, 5, 6, 9};
    int i, pair;
    family("every data offset byte x every flags byte of 4 base packets", PACKET);
    for (i = 0; i < 4; i++) {
        size_t size = base_packet(chosen[i], p), start, end;
        tcp_part(p, size, &start, &end);
        for (pair = 0; pair < 65536; pair++) {
            p[start + 12] = (uint8_t)(pair >> 8), p[start + 13] = (uint8_t)pair;
            try_packet(p, size, 1460, NULL);
        }
    }
}

static void every_header_pair(void) {
    uint8_t p[PACKET_MOST];
    static const uint8_t places[5][3] = {{0, 4, 5}, {0, 6, 7}, {0, 0, 8}, {6, 0, 1}, {6, 2, 3}}; /* base, two bytes */
    int i, pair;
    family("every pair: identification, fragment, length byte x TTL; class and flow label", PACKET);
    for (i = 0; i < 5; i++) {
        size_t size = base_packet(places[i][0], p);
        for (pair = 0; pair < 65536; pair++) {
            p[places[i][1]] = (uint8_t)(pair >> 8), p[places[i][2]] = (uint8_t)pair;
            try_packet(p, size, 0, NULL);
        }
    }
}

/* Header length x data offset x slice x IP length, 0xff bytes and a good header before them. */
static void grid(int version) {
    uint8_t p[PACKET_MOST];
    unsigned header, offset, slice, stated, step = version == 4 ? 3 : 1;
    size_t start;
    for (header = version == 4 ? 0 : 15; header < 16; header++)
        for (offset = 0; offset < 16; offset++) {
            base_packet(version == 4 ? 0 : 6, p);
            start = version == 4 ? 4 * header : 40;
            memset(p + 20 + (version == 6 ? 20 : 0), 0, PACKET_MOST - 40);
            p[0] = (uint8_t)(version << 4 | (version == 4 ? header : 0));
            if (start >= 20) p[start + 12] = (uint8_t)(offset << 4), p[start + 13] = 2, p[start + 20] = 2, p[start + 21] = 4;
            for (slice = 18; slice <= 144; slice += slice < 44 ? 1 : step)
                for (stated = 0; stated <= 150; stated += step) {
                    p[version == 4 ? 3 : 5] = (uint8_t)stated;
                    try_packet(p, slice, 0, NULL);
                }
        }
}

/* Every string of up to five of ten letters, as options of a SYN and a SYN+ACK whose data offset runs past the end. */
static void option_strings(void) {
    static const uint8_t letters[10] = {0, 1, 2, 3, 4, 5, 8, 10, 15, 255};
    uint8_t p[PACKET_MOST];
    unsigned size, i, number, all = 1, rest;
    family("every option string of up to 5 of 10 letters, as SYN and SYN+ACK", PACKET);
    for (size = 0; size <= 5; size++, all *= 10)
        for (number = 0; number < all; number++) {
            base_packet(0, p);
            for (rest = number, i = 0; i < size; i++, rest /= 10) p[40 + i] = letters[rest % 10];
            p[3] = (uint8_t)(40 + size), p[32] = 0xf0;
            p[33] = 2, try_packet(p, 40 + size, 0, NULL);
            p[33] = 18, try_packet(p, 40 + size, 0, NULL);
        }
}

/* The same of whole words, whose data offset fits: the strict mode reads them. */
static void option_words(const uint8_t *letters, unsigned n, unsigned size) {
    uint8_t p[PACKET_MOST];
    unsigned i, number, all = 1, rest;
    for (i = 0; i < size; i++) all *= n;
    base_packet(0, p);
    p[3] = (uint8_t)(40 + size), p[32] = (uint8_t)((20 + size) / 4 << 4);
    for (number = 0; number < all; number++) {
        for (rest = number, i = 0; i < size; i++, rest /= n) p[40 + i] = letters[rest % n];
        p[33] = 2, try_packet(p, 40 + size, 0, NULL);
        p[33] = 18, try_packet(p, 40 + size, 0, NULL);
    }
}

static void fitting_options(void) {
    static const uint8_t many[16] = {0, 1, 2, 3, 4, 5, 6, 7, 8, 10, 11, 14, 15, 254, 128, 255}, few[5] = {0, 1, 2, 3, 5};
    family("every option string of 4 of 16 letters and of 8 of 5, of a fitting data offset, as SYN and SYN+ACK", PACKET);
    option_words(many, 16, 4);
    option_words(few, 5, 8);
}

static void random_packets(unsigned share) {
    uint8_t p[PACKET_MOST];
    Random r = {1};
    unsigned i;
    family("random packets of both versions", PACKET);
    for (i = 0; i < 5000000 / share; i++) {
        size_t size = make_packet(&r, p);
        try_packet(p, size, make_peer(&r), NULL);
    }
    family("random packets, damaged", PACKET);
    for (i = 0; i < 4000000 / share; i++) {
        size_t size = make_packet(&r, p);
        size = damage_packet(&r, p, size);
        try_packet(p, size, make_peer(&r), NULL);
    }
    family("random bytes after a version", PACKET);
    for (i = 0; i < 300000 / share; i++) {
        size_t size = below(&r, 128), k;
        for (k = 0; k < size; k++) p[k] = byte_of(&r);
        if (size && chance(&r, 95)) p[0] = (uint8_t)((chance(&r, 50) ? 0x40 : 0x60) | below(&r, 16));
        if (size > 9 && chance(&r, 80)) p[6] = p[0] >> 4 == 4 ? 0 : 6, p[7] = 0, p[9] = 6;
        try_packet(p, size, make_peer(&r), NULL);
    }
}

/* Windows that are a multiple of one of the twelve divisors, so that each is often the first. */
static void windows(unsigned share) {
    uint8_t p[PACKET_MOST];
    Random r = {2};
    unsigned i, mss, peer, window;
    family("windows that are a multiple of one of the twelve divisors", PACKET);
    for (i = 0; i < 1500000 / share; i++) {
        static const int base[8] = {0, 2, 4, 6, 7, 8, 1, 9};
        size_t size = base_packet(base[below(&r, 8)], p), start, end;
        unsigned fixed[12], d = below(&r, 12);
        tcp_part(p, size, &start, &end);
        mss = below(&r, 10) ? 90 + below(&r, 2000) : draw(&r) % 65536;
        peer = below(&r, 4) ? 1 + below(&r, 3000) : below(&r, 30);
        if (p[start + 20] == 2) p[start + 22] = (uint8_t)(mss >> 8), p[start + 23] = (uint8_t)mss;
        fixed[0] = mss, fixed[1] = mss - 12, fixed[2] = 1460, fixed[3] = 1448, fixed[4] = 1440, fixed[5] = 1428;
        fixed[6] = mss + 40, fixed[7] = mss + (unsigned)start + 4u * (p[start + 12] >> 4), fixed[8] = mss + 60, fixed[9] = 1500;
        fixed[10] = peer, fixed[11] = peer - 12;
        window = fixed[d] * (1 + below(&r, 12));
        if (chance(&r, 50)) p[start + 13] = 18;
        p[start + 14] = (uint8_t)(window >> 8), p[start + 15] = (uint8_t)window;
        try_packet(p, size, (uint16_t)peer, NULL);
    }
}

void packet_families(unsigned share) {
    every_byte();
    every_length();
    every_flags();
    every_header_pair();
    family("header length x data offset x slice x IP length, version 4", PACKET);
    grid(4);
    family("data offset x slice x IP length, version 6", PACKET);
    grid(6);
    option_strings();
    fitting_options();
    random_packets(share);
    windows(share);
}
