#include "cover.h"

#include <stdio.h>
#include <string.h>

enum { GROUPS = 33, VALUES = 4096 };

static unsigned char shown[GROUPS][VALUES];
static const char *group_names[GROUPS];
static unsigned news;

/* A key is a group and a value; each is wanted so many times. */
static void key(int group, const char *name, unsigned value, unsigned wanted) {
    group_names[group] = name;
    value %= VALUES;
    if (shown[group][value] >= wanted) return;
    shown[group][value]++;
    news++;
}

static unsigned kind_class(uint8_t kind) {
    return kind <= 5 ? kind : kind == 8 ? 6 : 7;
}

/* Each option: its kind, how its length byte stands, whether it is clipped, how much of its data is there. */
static void option_keys(int group, const char *name, const uint8_t *s, size_t size) {
    size_t at = 0, own, left;
    while (at < size) {
        left = size - at;
        if (s[at] == 0) {
            key(group, name, 4000 + (unsigned)(left > 3 ? 3 : left), 2);
            return;
        }
        own = s[at] == 1 ? 1 : left > 1 && s[at + 1] > 2 ? s[at + 1] : 2;
        key(group, name,
            kind_class(s[at]) * 128 + (left < 2 ? 3 : s[at + 1] > 2 ? 2 : s[at + 1] == 2) * 32 + (own > left) * 16 +
                (unsigned)((own > left ? left : own) > 11 ? 11 : own > left ? left : own), 1);
        at += own;
    }
}

static void observation_keys(const uint8_t *o, unsigned answer) {
    uint32_t quirks = be32_at(o + 95);
    unsigned v6 = o[0] == 6, mss = be16_at(o + 6), i;
    for (i = 0; i < 32; i++)
        if (quirks >> i & 1) key(3, "quirk x version x SYN", i * 4 + v6 * 2 + (answer == 2), 2);
    key(4, "TTL byte, by version", o[2] * 2u + v6, o[2] < 4 || (o[2] >> 5 << 5) + 3 >= o[2] || o[2] > 222 ? 1 : 0);
    key(5, "TTL form", o[1], 3);
    key(6, "option length", o[4], 1);
    key(7, "MSS", o[5] ? mss < 99 ? 1 : mss == 99 ? 2 : mss == 100 ? 3 : mss > 65400 ? 4 : 5 : 0, 4);
    key(8, "scale", o[12] ? 1u + o[13] : 0, o[13] < 18 || o[13] == 255 ? 1 : 0);
    key(9, "divisor x version x peer", (unsigned)first_divisor(o) * 4 + v6 * 2 + (o[100] != 0), 2);
    key(10, "payload x version", o[99] * 2u + v6, 2);
    key(11, "layout count", o[14], 1);
    key(12, "tos", o[103], o[103] % 9 ? 0 : 1);
    key(13, "multiple over 255 x kind", o[104] * 2u + (be16_at(o + 105) > 255), 3);
}

int new_packet(const uint8_t *p, size_t size, const Numbers *answer, const uint8_t *o) {
    unsigned first = (unsigned)answer->n[0], v6 = size && p[0] >> 4 == 6;
    size_t start, end, options;
    news = 0;
    key(0, "answer x version", (first < 256 ? first : 16 + first / 256) * 2 + v6, 8);
    if (first >= 1792) key(1, "invalid flags", first & 0x17, 1);
    if (first / 256 == 1 && size) key(2, "version nibble", p[0] >> 4, 1);
    if (first / 256 == 5) key(14, "fragment bits", p[6] & 0x3f, 1);
    if (first / 256 == 2) key(15, "short packets", (unsigned)size, size < 3 || size > 17 ? 1 : 0);
    if (size < 40) return news > 0;
    tcp_part(p, size, &start, &end);
    key(16, "IP length against slice and header", ((v6 ? 40u + be16_at(p + 4) : be16_at(p + 2)) > size) * 4 +
        (end < size) * 2 + (end == start), 2);
    if (first / 256 == 6) key(17, "bytes of a short part", (unsigned)(end - start), 1);
    if (first > 3 || end - start < 20) return news > 0;
    if (first == 3) key(18, "flags that answer nothing", p[start + 13] & 0x17, 1);
    if (first == 3) return news > 0;
    options = 4u * (p[start + 12] >> 4);
    key(19, "data offset against the part", (unsigned)(options / 4) * 2 + (options > end - start), 1);
    if (options > end - start) options = end - start;
    if (options > 20) option_keys(20, "packets: option kind, length byte, clipped, data", p + start + 20, options - 20);
    observation_keys(o, first);
    return news > 0;
}

int new_options(const uint8_t *s, size_t size, const Numbers *answer) {
    news = 0;
    key(21, "options: answer, malformed, MSS, scale",
        (unsigned)(answer->n[0] * 8 + answer->n[1] * 4 + (answer->n[2] != 0) * 2 + (answer->n[3] != 0)), 3);
    if (size <= 40) option_keys(22, "options: option kind, length byte, clipped, data", s, size);
    key(23, "options: layout count", (unsigned)answer->n[20], 1);
    return news > 0;
}

static unsigned window_fits(const uint8_t *o, const uint8_t *r) {
    unsigned number = be16_at(r + 9), window = be16_at(o + 8);
    if (r[8] == 1) return window == number;
    if (r[8] == 2) return number && window % number == 0;
    if (r[8] > 2) return o[104] == r[8] - 2 && be16_at(o + 105) == number;
    return 1;
}

/* The tests that a record fails, a bit each. */
static unsigned failed(const uint8_t *o, const uint8_t *r, const uint8_t *entries) {
    uint32_t declared = be32_at(r + 14), seen = be32_at(o + 95);
    unsigned bits = 0, i, initial = r[2] + (r[1] == 1 ? r[3] : 0u);
    if (r[0] == 0) declared &= ~(o[0] == 4 ? UINT32_C(0x20) : UINT32_C(0xe));
    if (r[0] && r[0] != o[0]) bits |= 1;
    if (r[4] != o[4]) bits |= 2;
    if (r[5] && (!o[5] || memcmp(r + 6, o + 6, 2))) bits |= o[5] ? 4 : 8;
    if (!window_fits(o, r)) bits |= 16;
    if (r[11] && (!o[12] || r[12] != o[13])) bits |= o[12] ? 32 : 64;
    if (r[20] != o[14]) bits |= 128;
    for (i = 0; i < r[20] && i < o[14] && r[20] == o[14]; i++)
        bits |= (entries[2 * i] != o[15 + i]) * 256u | (entries[2 * i] == o[15 + i] && entries[2 * i + 1] != o[55 + i]) * 512u;
    if (r[13] != 2 && r[13] != o[99]) bits |= 1024;
    if (r[1] == 3 && o[2] > initial) bits |= 2048;
    if (declared & ~seen & ~UINT32_C(6)) bits |= 4096;
    if (seen & ~declared & ~UINT32_C(9)) bits |= 8192;
    return bits;
}

static void single_keys(const uint8_t *o, const uint8_t *list, unsigned answer) {
    const uint8_t *r = list + be16_at(list + 2);
    unsigned bits = failed(o, r, list + be16_at(list + 6) + 2 * be16_at(r + 18)), i;
    for (i = 0; i < 14; i++)
        if (bits == 1u << i) key(24, "the one test that rejects, window form", i * 8 + (i == 4 ? r[8] : 0), 3);
    key(25, "answer x TTL form x version x window form", (answer / 65536 * 4 + r[1]) * 16 + (r[0] / 2) * 5 + r[8], 1);
}

int new_search(const uint8_t *o, const uint8_t *list, const Numbers *answer, int passed, int place) {
    unsigned first = (unsigned)answer->n[0], kind = (unsigned)answer->n[6];
    news = 0;
    if (place < -2) news++;
    key(26, "search answers, by kind", first < 65536 ? first : 100 + first / 65536 * 2 + kind, 10);
    if (first == 10) {
        unsigned where = (unsigned)(place >= 8 ? (place - 8) % 24 : 31);
        key(27, "refusal 10: index and the place that was overwritten", (unsigned)answer->n[1] * 32 + where, 1);
    }
    if (first == 9) key(28, "refusal 9: place", (unsigned)(place < -2 ? 0 : place + 2), 1);
    if (first >= 196608) {
        unsigned hops = (unsigned)answer->n[2], added = (unsigned)answer->n[3] % 16, missing = (unsigned)answer->n[4] % 16;
        key(29, "fuzzy: hops, added, missing", (hops != 0) * 256u + added * 16 + missing, 2);
        if (hops) key(30, "hops out of range", hops % 256 < 40 ? hops % 256 : 40, 1);
    }
    if (first < 65536) return news > 0;
    if (be16_at(list) == 1) single_keys(o, list, first);
    key(31, "records x answer x kind", be16_at(list) * 8u + first / 65536 * 2 + kind, 4);
    key(32, "records x answer x kind x what stands before it and fits too",
        ((be16_at(list) * 4u + first / 65536) * 2 + kind) * 4 + (unsigned)passed, 2);
    return news > 0;
}

void cover_report(void) {
    int g, v, n;
    for (g = 0; g < GROUPS; g++) {
        for (n = 0, v = 0; v < VALUES; v++) n += shown[g][v] > 0;
        if (group_names[g]) fprintf(stderr, "%s: %d\n", group_names[g], n);
    }
}
