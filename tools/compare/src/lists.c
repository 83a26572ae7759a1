/* Observations, and lists derived from them. */
#include "make.h"

#include <string.h>

static const uint8_t quirk_places[17] = {0, 1, 2, 3, 4, 5, 12, 13, 14, 15, 16, 17, 24, 25, 26, 27, 28};

static void put16(uint8_t *p, unsigned n) { p[0] = (uint8_t)(n >> 8), p[1] = (uint8_t)n; }

static void put32(uint8_t *p, uint32_t n) { put16(p, n >> 16), put16(p + 2, n & 65535); }

static uint32_t make_quirks(Random *r) {
    uint32_t quirks = 0;
    unsigned n = below(r, 6);
    while (n--) quirks |= UINT32_C(1) << quirk_places[below(r, chance(r, 60) ? 6 : 17)];
    return quirks;
}

void make_observation(Random *r, uint8_t *o) {
    unsigned i, count = chance(r, 95) ? below(r, 9) : below(r, chance(r, 60) ? 41 : 60);
    memset(o, 0, OBSERVATION);
    o[0] = chance(r, 50) ? 4 : 6;
    o[1] = (uint8_t)below(r, 4), o[2] = byte_of(r), o[3] = o[1] == 1 ? byte_of(r) : 0;
    o[4] = chance(r, 70) ? 0 : byte_of(r);
    if ((o[5] = (uint8_t)chance(r, 80))) put16(o + 6, chance(r, 70) ? 1460 : draw(r) % 65536);
    put16(o + 8, chance(r, 50) ? 1460 * below(r, 45) : draw(r) % 65536);
    put16(o + 10, chance(r, 80) ? 40 + 4 * below(r, 16) : draw(r) % 65536);
    if ((o[12] = (uint8_t)chance(r, 60))) o[13] = byte_of(r);
    o[14] = (uint8_t)count;
    for (i = 0; i < count && i < 40; i++) {
        o[15 + i] = byte_of(r);
        o[55 + i] = o[15 + i] ? 0 : byte_of(r);
    }
    put32(o + 95, chance(r, 95) ? make_quirks(r) : draw(r) & UINT32_C(0x1F03F03F));
    o[99] = (uint8_t)chance(r, 30);
    if ((o[100] = (uint8_t)chance(r, 40))) put16(o + 101, chance(r, 50) ? 1460 : draw(r) % 65536);
    o[103] = (uint8_t)(byte_of(r) / 4);
}

static void derive_ttl(Random *r, unsigned ttl, uint8_t *record) {
    unsigned initial = ttl + below(r, 36);
    if (initial > 255) initial = 255;
    record[1] = (uint8_t)below(r, 4);
    record[2] = (uint8_t)initial;
    if (record[1] == 1) {
        record[3] = (uint8_t)below(r, initial + 1);
        record[2] = (uint8_t)(initial - record[3]);
        if (chance(r, 10)) record[2] = 200, record[3] = byte_of(r);
    }
}

static void derive_window(Random *r, const uint8_t *o, uint8_t *record) {
    unsigned window = be16_at(o + 8), multiple = be16_at(o + 105), divisor = 1 + below(r, 12);
    record[8] = (uint8_t)below(r, 3);
    if (o[104] && multiple <= 255 && chance(r, 60)) record[8] = o[104] + 2;
    if (record[8] == 1) put16(record + 9, window);
    if (record[8] == 2) put16(record + 9, window % divisor ? (window ? window : 7) : divisor);
    if (record[8] >= 3) put16(record + 9, multiple);
}

/* A record that fits exactly. */
static void derive(Random *r, const uint8_t *o, uint8_t *record) {
    memset(record, 0, RECORD);
    record[0] = chance(r, 50) ? o[0] : 0;
    derive_ttl(r, o[2], record);
    record[4] = o[4];
    if (o[5] && chance(r, 40)) memcpy(record + 5, o + 5, 3);
    derive_window(r, o, record);
    if (o[12] && chance(r, 40)) memcpy(record + 11, o + 12, 2);
    record[13] = chance(r, 50) ? o[99] : 2;
    memcpy(record + 14, o + 95, 4);
    if (record[0] == 0 && chance(r, 30)) record[17] ^= o[0] == 4 ? 0x20 : 0x0e; /* masked */
    record[20] = o[14] > 40 ? 40 : o[14];
    put16(record + 22, draw(r) % 65536);
}

static void change(Random *r, uint8_t *record, uint8_t *entries) {
    unsigned place = below(r, 17);
    switch (below(r, 16)) {
    case 0: case 1: record[2] = byte_of(r); break;
    case 2: case 3: record[17] ^= 2; break;
    case 4: case 5: record[17] ^= 4; break;
    case 6: record[17] ^= 8; break;
    case 7: record[17] ^= 1; break;
    case 8: put32(record + 14, be32_at(record + 14) ^ UINT32_C(1) << quirk_places[place]); break;
    case 9: record[0] = (uint8_t)(record[0] == 4 ? 6 : 4); break;
    case 10: record[4] = byte_of(r); break;
    case 11: record[5] = 1, put16(record + 6, chance(r, 50) ? 1460 : draw(r) % 65536); break;
    case 12: record[8] = (uint8_t)(1 + below(r, 4)), put16(record + 9, below(r, chance(r, 70) ? 64 : 256)); break;
    case 13: record[11] = 1, record[12] = byte_of(r); break;
    case 14: record[13] = (uint8_t)below(r, 3); break;
    default:
        if (record[20] && chance(r, 60)) {
            entries[2 * below(r, record[20])] = byte_of(r);
            for (place = 0; place < record[20]; place++)
                if (entries[2 * place]) entries[2 * place + 1] = 0;
        } else {
            record[20] ^= 1;
        }
    }
}

size_t make_list(Random *r, const uint8_t *o, unsigned records, unsigned changes, uint8_t *list) {
    uint8_t entries[82 * RECORDS_MOST + 2] = {0}, *record;
    Random kinds = {~r->state};
    unsigned all = 0, i, j, at = 8 + (chance(r, 20) ? below(r, 9) : 0), entries_at;
    memset(list, 0, LIST_MOST);
    entries_at = at + RECORD * records + (chance(r, 20) ? below(r, 5) : 0);
    for (i = 0; i < records; i++) {
        record = list + at + RECORD * i;
        derive(r, o, record);
        record[21] = below(&kinds, 3) == 0;
        put16(record + 18, all);
        for (j = 0; j < record[20]; j++) entries[2 * (all + j)] = o[15 + j], entries[2 * (all + j) + 1] = o[55 + j];
        for (j = below(r, changes + 1); j > 0; j--) change(r, record, entries + 2 * all);
        all += record[20];
    }
    all += below(r, 2);
    put16(list, records), put16(list + 2, at), put16(list + 4, all), put16(list + 6, entries_at);
    memcpy(list + entries_at, entries, 2 * all);
    return entries_at + 2 * all;
}

size_t damage_list(Random *r, uint8_t *list, size_t size) {
    unsigned records = be16_at(list);
    switch (below(r, 4)) {
    case 0: return below(r, (uint32_t)size + 1);
    case 1: list[below(r, 8)] = byte_of(r); break;
    default: list[8 + below(r, records ? RECORD * records : 8)] = byte_of(r);
    }
    return size;
}
