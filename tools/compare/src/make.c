#include "make.h"

#include <string.h>

uint32_t draw(Random *r) {
    uint64_t z = r->state += UINT64_C(0x9E3779B97F4A7C15);
    z = (z ^ z >> 30) * UINT64_C(0xBF58476D1CE4E5B9);
    z = (z ^ z >> 27) * UINT64_C(0x94D049BB133111EB);
    return (uint32_t)((z ^ z >> 31) >> 16);
}

uint32_t below(Random *r, uint32_t n) { return draw(r) % n; }

int chance(Random *r, uint32_t percent) { return below(r, 100) < percent; }

uint8_t byte_of(Random *r) {
    static const uint8_t telling[] = {0, 1, 2, 3, 4, 5, 8, 10, 14, 15, 32, 33, 64, 65, 128, 129, 254, 255};
    return chance(r, 40) ? telling[below(r, sizeof telling)] : (uint8_t)draw(r);
}

static void put16(uint8_t *p, unsigned n) { p[0] = (uint8_t)(n >> 8), p[1] = (uint8_t)n; }

static void put_random(Random *r, uint8_t *p, size_t n) {
    while (n--) *p++ = (uint8_t)draw(r);
}

static unsigned make_mss(Random *r) {
    static const unsigned telling[] = {0, 1, 12, 99, 100, 112, 536, 1220, 1380, 1440, 1452, 1460, 8960, 65495, 65496, 65535};
    return chance(r, 75) ? telling[below(r, 16)] : draw(r) % 65536;
}

static size_t stamp(Random *r, uint8_t *s) {
    memset(s, 0, 10);
    s[0] = 8, s[1] = 10;
    if (chance(r, 70)) put_random(r, s + 2, 4);
    if (chance(r, 10)) s[2 + below(r, 4)] = 1;
    if (chance(r, 40)) put_random(r, s + 6, 4);
    return 10;
}

static size_t one_option(Random *r, uint8_t *s) {
    switch (below(r, 10)) {
    case 0: case 1: s[0] = 1; return 1;
    case 2: case 3: s[0] = 2, s[1] = 4, put16(s + 2, make_mss(r)); return 4;
    case 4: s[0] = 3, s[1] = 3, s[2] = chance(r, 80) ? (uint8_t)below(r, 16) : byte_of(r); return 3;
    case 5: s[0] = 4, s[1] = 2; return 2;
    case 6: case 7: return stamp(r, s);
    case 8: s[0] = 5, s[1] = 10, put_random(r, s + 2, 8); return 10;
    default: s[0] = byte_of(r), s[1] = (uint8_t)below(r, 12), put_random(r, s + 2, 8); return 2 + below(r, 9);
    }
}

size_t make_options(Random *r, uint8_t *s) {
    uint8_t whole[512];
    size_t n = 0, options = below(r, 7), room;
    if (chance(r, 3)) {
        n = below(r, 41);
        put_random(r, s, n);
        return n;
    }
    if (chance(r, 2)) { /* many entries */
        n = 10 + below(r, 31);
        memset(s, 1, n);
        if (chance(r, 50)) s[below(r, (uint32_t)n)] = byte_of(r);
        return n;
    }
    while (options--) n += one_option(r, whole + n);
    if (chance(r, 15)) {
        whole[n++] = 0;
        room = below(r, 4);
        memset(whole + n, 0, room);
        if (room && chance(r, 40)) whole[n + below(r, (uint32_t)room)] = byte_of(r);
        n += room;
    }
    if (chance(r, 10) && n) n = below(r, (uint32_t)n + 1);
    if (chance(r, 8) && n) whole[below(r, (uint32_t)n)] = byte_of(r);
    if (n > 40) n = 40;
    memcpy(s, whole, n);
    return n;
}

uint16_t make_peer(Random *r) { return chance(r, 40) ? 0 : (uint16_t)make_mss(r); }

/* Often a multiple of something that may be a divisor. */
static unsigned make_window(Random *r, const uint8_t *options, size_t n) {
    unsigned mss = n >= 4 && options[0] == 2 ? be16_at(options + 2) : 1460;
    static const int more[] = {0, 0, 0, -12, 40, 60, 64, 72, 80};
    static const unsigned fixed[] = {1460, 1448, 1440, 1428, 1500, 536, 1380};
    unsigned base = chance(r, 60) ? mss + (unsigned)more[below(r, 9)] : fixed[below(r, 7)];
    if (chance(r, 5)) return 0;
    if (chance(r, 25)) return draw(r) % 65536;
    return (base * (1 + below(r, chance(r, 70) ? 10 : 64))) % 65536;
}

static uint8_t make_flags(Random *r) {
    uint8_t flags = chance(r, 50) ? 2 : 18;
    if (chance(r, 6)) return (uint8_t)draw(r);
    if (chance(r, 25)) flags |= (uint8_t)(8u << below(r, 5));
    if (flags == 18 || flags == 2 || !chance(r, 50)) return flags;
    return flags | (uint8_t)(8u << below(r, 5));
}

static size_t make_tcp(Random *r, uint8_t *t) {
    size_t n = make_options(r, t + 20), words = (n + 3) / 4, payload = chance(r, 25) ? 1 + below(r, 8) : 0;
    put_random(r, t, 20);
    if (chance(r, 10)) memset(t + 4, 0, 4);
    if (chance(r, 60)) memset(t + 8, 0, 4);
    t[13] = make_flags(r);
    put16(t + 14, make_window(r, t + 20, n));
    if (chance(r, 85)) memset(t + 18, 0, 2);
    t[12] = (uint8_t)((5 + words) << 4 | (draw(r) & 15));
    if (chance(r, 20)) return t[12] = (uint8_t)(t[12] & 15) | 0xf0, 20 + n; /* clipped */
    memset(t + 20 + n, 0, 4 * words - n);
    put_random(r, t + 20 + 4 * words, payload);
    return 20 + 4 * words + payload;
}

static size_t make_v4(Random *r, uint8_t *p) {
    size_t header = chance(r, 85) ? 20 : 20 + 4 * below(r, 11), n;
    put_random(r, p, header);
    p[0] = (uint8_t)(0x40 | header / 4);
    p[1] = chance(r, 70) ? 0 : (uint8_t)draw(r);
    if (chance(r, 40)) memset(p + 4, 0, 2);
    p[6] = chance(r, 60) ? 0x40 : 0;
    p[7] = 0;
    if (chance(r, 5)) p[6] |= 0x80;
    p[8] = byte_of(r);
    p[9] = 6;
    n = header + make_tcp(r, p + header);
    put16(p + 2, (unsigned)n);
    return n;
}

static size_t make_v6(Random *r, uint8_t *p) {
    size_t n;
    put_random(r, p, 40);
    p[0] = (uint8_t)(0x60 | (chance(r, 70) ? 0 : below(r, 16)));
    if (chance(r, 70)) p[1] &= 15;
    if (chance(r, 50)) p[1] &= 0xf0, p[2] = p[3] = 0;
    p[6] = 6;
    p[7] = byte_of(r);
    n = make_tcp(r, p + 40);
    put16(p + 4, (unsigned)n);
    return 40 + n;
}

size_t make_packet(Random *r, uint8_t *p) { return chance(r, 55) ? make_v4(r, p) : make_v6(r, p); }

size_t damage_packet(Random *r, uint8_t *p, size_t size) {
    size_t i, times = 1 + below(r, 3), at = p[0] >> 4 == 4 ? 2 : 4;
    switch (below(r, 4)) {
    case 0: return below(r, (uint32_t)size + 1);
    case 1: i = below(r, 24), put_random(r, p + size, i), size += i; break;
    case 2: put16(p + at, chance(r, 70) ? below(r, 140) : draw(r) % 65536); break;
    default: break;
    }
    for (i = 0; i < times; i++)
        if (chance(r, 70)) p[below(r, chance(r, 60) && size > 40 ? 40 : (uint32_t)size)] = byte_of(r);
    return size;
}

void observe(Random *r, uint8_t *o) {
    uint8_t p[PACKET_MOST];
    Numbers n;
    do {
        size_t size = make_packet(r, p);
        oracle_packet(p, size, make_peer(r), 0, &n, o);
    } while (n.n[0] > 2);
}
