/* The stored cases of lines that are written: raw lines of observations, lines of records, each with the room of its buffer. */
#include "storedwritten.h"
#include "asking.h"
#include "families.h"
#include "make.h"
#include "written.h"

#include <stdio.h>
#include <string.h>

static unsigned kept;

static const unsigned words[] = {0, 9, 10, 99, 100, 255, 256, 999, 1000, 9999, 10000, 65535};
enum { WORDS = 12, BYTES = 6 };

static void put16(uint8_t *p, unsigned n) { p[0] = (uint8_t)(n >> 8), p[1] = (uint8_t)n; }

static void put32(uint8_t *p, uint32_t n) { put16(p, n >> 16), put16(p + 2, n & 65535); }

static void write_answer(const Written *w, size_t room) {
    if (w->refusal == 10) printf("refused 10 %zu\n", w->bad_record);
    else if (w->refusal) printf("refused %u\n", w->refusal);
    else if (w->length > room) printf("refused 15\n");
    else printf("ok %zu %.*s\n", w->length, (int)w->length, (const char *)w->text);
    kept++;
}

/* ---- raw lines */

static void keep_raw(const uint8_t *o, size_t room) {
    Written w;
    witness_observation given = observation_of(o);
    oracle_raw(o, be16_at(o + 8), &w);
    printf("raw.in %zu ", room);
    write_observation(&given);
    fputs("\nraw.out ", stdout);
    write_answer(&w, room);
}

/* In a buffer of the line's length, and now and then of a byte less or some more. */
static void keep_observation(const uint8_t *o) {
    static unsigned turn;
    Written w;
    oracle_raw(o, be16_at(o + 8), &w);
    keep_raw(o, w.length);
    if (turn % 3 == 0) keep_raw(o, w.length - 1);
    if (turn % 4 == 0) keep_raw(o, 512);
    turn++;
}

static void empty(uint8_t *o) {
    memset(o, 0, OBSERVATION);
    o[0] = 4, o[2] = 64;
}

static void each_number(void) {
    uint8_t o[OBSERVATION];
    unsigned i, form;
    for (i = 0; i < WORDS; i++) {
        empty(o);
        put16(o + 8, words[i]), o[5] = 1, put16(o + 6, words[WORDS - 1 - i]), o[12] = 1, o[13] = (uint8_t)words[i % BYTES];
        o[4] = (uint8_t)words[(i + 1) % BYTES], o[99] = i % 2;
        keep_observation(o);
    }
    for (form = 0; form < 4; form++)
        for (i = 0; i < BYTES; i++) {
            empty(o);
            o[0] = i % 2 ? 6 : 4, o[1] = (uint8_t)form, o[2] = (uint8_t)words[i], o[3] = form == 1 ? (uint8_t)words[BYTES - 1 - i] : 0;
            keep_observation(o);
        }
}

static void each_entry(void) {
    static const uint8_t kinds[] = {0, 1, 2, 3, 4, 5, 6, 7, 8, 9, 10, 19, 20, 99, 100, 199, 200, 249, 250, 254, 255};
    static const uint8_t counts[] = {1, 2, 3, 38, 39, 40};
    uint8_t o[OBSERVATION];
    unsigned i, k;
    for (i = 0; i < sizeof kinds; i++) {
        empty(o);
        o[14] = 2, o[15] = kinds[i], o[16] = kinds[(i + 1) % sizeof kinds], o[55] = (uint8_t)words[i % BYTES], o[56] = 3;
        keep_observation(o);
    }
    for (i = 0; i < sizeof counts; i++) {
        empty(o);
        o[14] = counts[i];
        for (k = 0; k < counts[i]; k++) o[15 + k] = kinds[(k * 5 + i) % sizeof kinds], o[55 + k] = o[15 + k] ? 0 : (uint8_t)(255 - k);
        keep_observation(o);
    }
    for (i = 41; i < 60; i += 9)
        for (o[14] = (uint8_t)i, k = 0; k < 3; k++) keep_raw(o, k == 0 ? 0 : k == 1 ? 14 : 512);
}

static void each_quirk(void) {
    static const uint32_t sets[] = {0x1F03F03F, 0xFFFFFFFF, 0xE0FC0FC0, 0x3, 0x5, 0x9, 0x1021, 0x11, 0x18030, 0x11000000};
    uint8_t o[OBSERVATION];
    unsigned i;
    for (i = 0; i < 32; i++) {
        empty(o);
        put32(o + 95, UINT32_C(1) << i);
        keep_observation(o);
    }
    for (i = 0; i < sizeof sets / sizeof *sets; i++) {
        empty(o);
        put32(o + 95, sets[i]), o[99] = i % 2;
        keep_observation(o);
    }
}

/* The observations of the base packets, every room about the length of one of their lines, and the longest line. */
static void of_packets(void) {
    uint8_t p[BASE_MOST], o[OBSERVATION];
    Numbers answer;
    size_t room;
    int i;
    for (i = 0; i < BASES; i++) {
        size_t size = base_packet(i, p);
        oracle_packet(p, size, 1460, 1, &answer, o);
        if (answer.n[0] <= 2) keep_observation(o);
    }
    empty(o);
    for (room = 0; room < 24; room++) keep_raw(o, room);
    memset(o + 1, 255, OBSERVATION - 1);
    o[1] = 1, o[5] = o[12] = o[99] = o[100] = 1, o[14] = 40, o[9] = 254, memset(o + 15, 0, 40), memset(o + 104, 0, 6);
    for (room = 430; room < 435; room++) keep_raw(o, room);
}

/* ---- records */

static void keep_record(const uint8_t *list, size_t size, size_t index, size_t room) {
    Written w;
    size_t i;
    oracle_record(list, size, index, &w);
    fputs("record.in ", stdout);
    if (size == 0) putchar('-');
    for (i = 0; i < size; i++) printf("%02x", (unsigned)list[i]);
    printf(" %zu %zu\nrecord.out ", index, room);
    write_answer(&w, room);
}

/* Each record of a list in buffers about the length of its line, now and then the number behind the last. */
static void keep_list(const uint8_t *list, size_t size) {
    static unsigned turn;
    Written w;
    size_t i, numbers = be16_at(list) + (turn % 6 == 0);
    for (i = 0; i < numbers; i++) {
        oracle_record(list, size, i, &w);
        keep_record(list, size, i, w.length);
        if (w.length && turn % 3 == 0) keep_record(list, size, i, w.length - 1);
        if (turn++ % 4 == 0) keep_record(list, size, i, 512);
    }
}

enum { ENTRIES = 40, ONE = 8 + RECORD + 2 * ENTRIES };

/* A list of one record, with room for forty entries. */
static void one_record(uint8_t *list) {
    memset(list, 0, ONE);
    put16(list, 1), put16(list + 2, 8), put16(list + 4, ENTRIES), put16(list + 6, 8 + RECORD);
}

static void each_field(void) {
    static const uint8_t versions[] = {0, 4, 6};
    uint8_t list[ONE], *record = list + 8;
    unsigned form, i, k;
    for (form = 0; form < 5; form++)
        for (i = 0; i < (form == 0 ? 1 : form < 3 ? WORDS : BYTES); i++) {
            one_record(list);
            record[8] = (uint8_t)form, put16(record + 9, form ? words[i] : 0);
            record[5] = record[11] = i % 2, record[12] = record[11] ? (uint8_t)words[i % BYTES] : 0;
            put16(record + 6, record[5] ? words[i] : 0), record[13] = (uint8_t)(i % 3), record[0] = versions[(i / 2) % 3];
            keep_record(list, ONE, 0, 512);
        }
    for (form = 0; form < 4; form++)
        for (i = 0; i < 9; i++) {
            one_record(list);
            record[0] = versions[i % 3], record[13] = (uint8_t)(i / 3), record[1] = (uint8_t)form, record[2] = (uint8_t)words[i % BYTES];
            record[3] = form == 1 ? (uint8_t)words[i / 2] : 0, record[20] = (uint8_t)(i * 5);
            put32(record + 14, UINT32_C(0x1F03F03F) >> i & UINT32_C(0x1F03F03F));
            for (k = 0; k < record[20]; k++) list[32 + 2 * k] = (uint8_t)(i + k), list[33 + 2 * k] = i + k ? 0 : 9;
            keep_list(list, ONE);
        }
}

static void longest(void) {
    uint8_t list[ONE], *record = list + 8;
    size_t room;
    unsigned k;
    one_record(list);
    memset(record, 255, RECORD);
    record[0] = 6, record[1] = record[5] = record[11] = 1, record[13] = 2, record[21] = 0, record[8] = 3, put16(record + 9, 255);
    record[20] = ENTRIES, put16(record + 18, 0), put32(record + 14, 0x1F03F03F);
    for (k = 0; k < ENTRIES; k++) list[33 + 2 * k] = 255;
    for (room = 432; room < 437; room++) keep_record(list, ONE, 0, room);
}

/* Random lists whose records lie anywhere in them; the same with a record or an area that is bad, and any number. */
static void lists_of_some(void) {
    uint8_t o[OBSERVATION], list[LIST_MOST];
    Random r = {24};
    size_t size;
    int i;
    for (i = 0; i < 60; i++) {
        observe(&r, o);
        size = make_list(&r, o, below(&r, 4), 3, list);
        if (size > 300) continue;
        if (i % 3 == 0) keep_list(list, size);
        size = damage_list(&r, list, size);
        keep_record(list, size, below(&r, 5), i % 2 ? 512 : 0);
        keep_record(list, size, 65535, below(&r, 40));
    }
}

unsigned stored_written(void) {
    each_number();
    each_entry();
    each_quirk();
    of_packets();
    each_field();
    longest();
    lists_of_some();
    return kept;
}
