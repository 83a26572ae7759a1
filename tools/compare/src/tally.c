#include "counts.h"
#include "damage.h"
#include "original.h"
#include "written.h"

#include <stdlib.h>
#include <string.h>

static const Numbers refused_14 = {{256 * 14, 4}}; /* the empty observation beside it */

Counts counts;

void family(const char *name, Kind kind) {
    if (counts.used == FAMILIES) exit(2);
    counts.families[counts.used].name = name;
    counts.families[counts.used].kind = kind;
    counts.used++;
}

static Family *tried(void) { return &counts.families[counts.used - 1]; }

static int answer_of(Kind kind, const Numbers *a) {
    uint64_t n = a->n[0];
    if (kind == PAIR) return 20;
    if (kind == HOPS) return 21;
    if (kind == LINE) return n == 13 ? 23 : 22;
    if (kind == TTL) return 24;
    if (kind == RAW_LINE || kind == RECORD_LINE) return n == 1 ? 25 : n == 23 ? 26 : (int)n + 8;
    if (kind == OPTIONS) return n == 8 ? 12 : a->n[1] ? 11 : 10;
    if (kind == SEARCH) return n >= 196608 ? 15 : n >= 131072 ? 13 + (int)a->n[6] : n == 65536 ? 16 : (int)n + 8;
    return n < 256 ? (int)n - 1 : (int)(n / 256) + 2;
}

static int smaller(const uint8_t *a, size_t m, const uint8_t *b, size_t n) {
    return m != n ? m < n : memcmp(a, b, m) < 0;
}

static void note(Kind kind, int which, const uint8_t *input, size_t size, const Numbers *port, const Numbers *original) {
    Difference *d = counts.differences[kind][which];
    if (size > MOST) size = MOST;
    if (!d) {
        d = counts.differences[kind][which] = calloc(1, sizeof *d);
        if (!d) exit(2);
        d->first_size = d->least_size = size;
        memcpy(d->first, input, size);
    }
    if (d->times == 0 || smaller(input, size, d->least, d->least_size)) {
        memcpy(d->least, input, size);
        d->least_size = size;
        d->port = *port;
        d->original = *original;
    }
    d->times++;
}

static void hold(Kind kind, const uint8_t *input, size_t size, const Numbers *port, const Numbers *expected) {
    int i;
    for (i = 0; i < NUMBERS && port->n[i] == expected->n[i]; i++) {}
    if (i == NUMBERS) return;
    tried()->differences++;
    note(kind, i, input, size, port, expected);
}

static void count_answer(uint64_t *answers, Kind kind, const Numbers *a) {
    int answer = answer_of(kind, a);
    if (answer >= 0 && answer < ANSWERS) answers[answer]++;
}

static void settle(Kind kind, const uint8_t *input, size_t size, const Numbers *port, const Numbers *original) {
    tried()->inputs++;
    count_answer(tried()->answers, kind, original);
    hold(kind, input, size, port, original);
}

static void look(const uint8_t *o) {
    uint32_t quirks = be32_at(o + 95);
    int i;
    for (i = 0; i < 32; i++) counts.quirks[i] += quirks >> i & 1;
    counts.divisors[first_divisor(o)]++;
    counts.ttl_forms[o[1] & 3]++;
}

/* The strict answer to a packet that is not refused by 14. */
static Numbers strict_answer(const uint8_t *p, size_t size, uint16_t peer, const Numbers *plain) {
    Numbers expected = *plain;
    uint8_t sound[MOST];
    int filling;
    if (plain->n[0] > 2 || size > MOST) return expected;
    memcpy(sound, p, size);
    filling = made_sound(sound, size);
    if (!filling) return expected;
    oracle_packet(sound, size, peer, (int)(size & 1), &expected, NULL);
    take_filling(&expected, filling);
    count_answer(counts.damaged, PACKET, plain);
    return expected;
}

Numbers try_packet(const uint8_t *p, size_t size, uint16_t peer, uint8_t *observation) {
    Numbers port, original, strict, expected;
    uint8_t own[OBSERVATION], input[MOST];
    int refused = table_strict(p, size);
    oracle_packet(p, size, peer, (int)(size & 1), &original, own);
    port_packet(p, size, peer, WITNESS_PLAIN, &port);
    port_packet(p, size, peer, WITNESS_STRICT, &strict);
    if (original.n[0] < 3) {
        look(own);
        if (observation) memcpy(observation, own, OBSERVATION);
    }
    expected = refused ? refused_14 : strict_answer(p, size, peer, &original);
    input[0] = (uint8_t)(peer >> 8), input[1] = (uint8_t)peer;
    if (size > MOST - 2) size = MOST - 2;
    memcpy(input + 2, p, size);
    settle(PACKET, input, size + 2, &port, &original);
    tried()->strict++;
    tried()->refused_14 += (uint64_t)refused;
    if (refused) count_answer(counts.replaced, PACKET, &original);
    hold(STRICT_PACKET, input, size + 2, &strict, &expected);
    return original;
}

Numbers try_options(const uint8_t *s, size_t size) {
    Numbers port, original;
    oracle_options(s, size, &original);
    port_options(s, size, &port);
    settle(OPTIONS, s, size, &port, &original);
    return original;
}

void try_walk(const Numbers *walk, const Numbers *expected, const uint8_t *s, size_t size) {
    tried()->walks++;
    hold(WALK, s, size, walk, expected);
}

void count_places(const Numbers *walk) { tried()->damage[(walk->n[5] != 0) + 2 * (walk->n[6] != 0)]++; }

static void count_found(const Numbers *found, int passed) {
    counts.passed[0] += found->n[6] == 0 && passed & PASSED_GENERIC;
    counts.passed[1] += found->n[6] == 0 && passed & PASSED_FUZZY;
    counts.passed[2] += found->n[6] == 1 && passed & PASSED_FUZZY;
    if (found->n[0] < 196608) return;
    counts.fuzzy_kinds[found->n[6]]++;
    counts.reasons[0] += found->n[2] != 0;
    counts.reasons[1] += found->n[3] & 1;
    counts.reasons[2] += found->n[3] >> 3 & 1;
    counts.reasons[3] += found->n[4] >> 1 & 1;
    counts.reasons[4] += found->n[4] >> 2 & 1;
}

static void count_examined(const Numbers *found, unsigned records) {
    counts.examined[0] += found->n[7] < records;
    counts.examined[1] += found->n[7] == records;
    counts.examined[2] += found->n[7] == records && found->n[0] / 65536 == 2 && found->n[6] == 0;
    counts.examined[3] += records == 0;
}

Numbers try_search(const uint8_t *o, const uint8_t *list, size_t size) {
    Numbers port, original;
    uint8_t input[MOST];
    int passed = oracle_search(o, list, size, &original);
    count_found(&original, passed);
    if (original.n[0] >= 65536) count_examined(&original, be16_at(list));
    port_search(o, list, size, &port);
    if (size > MOST - OBSERVATION) size = MOST - OBSERVATION;
    memcpy(input, o, OBSERVATION);
    memcpy(input + OBSERVATION, list, size);
    settle(SEARCH, input, size + OBSERVATION, &port, &original);
    return original;
}

void try_hops(const uint8_t ttls[6]) {
    Numbers port, original;
    oracle_hops(ttls, &original);
    port_hops(ttls, &port);
    settle(HOPS, ttls, 6, &port, &original);
}

void try_ttl(uint8_t byte) {
    Numbers port, original;
    oracle_ttl(byte, &original);
    port_ttl(byte, &port);
    settle(TTL, &byte, 1, &port, &original);
}

/* What the original says of a line must be what its own grammar says; and where that is not what is said here, why. */
static LineClass class_of(const uint8_t *s, size_t size, const LineText *here) {
    static LineText there;
    static uint8_t rows[3 * LINE_ENTRIES];
    uint8_t record[24];
    size_t count, i, held;
    int said = original_line(s, size, record, rows, LINE_ENTRIES, &count);
    line_by_original(s, size, &there);
    if (said == 2) {
        for (i = 0; i < size && s[i] < 128; i++) {}
        return i < size ? NOT_UTF8 : OTHERWISE;
    }
    held = count < LINE_ENTRIES ? count : LINE_ENTRIES;
    if ((said == 0) != there.read || count != there.count || memcmp(record, there.record, sizeof record) ||
        memcmp(rows, there.kinds, held) || memcmp(rows + LINE_ENTRIES, there.bytes, held) ||
        memcmp(rows + 2 * LINE_ENTRIES, there.named, held))
        return OTHERWISE;
    if (here->read && there.read && (count != here->count || memcmp(record, here->record, sizeof record) ||
                                     memcmp(rows, here->kinds, held) || memcmp(rows + LINE_ENTRIES, here->bytes, held)))
        return OTHERWISE;
    return class_of_line(s, size, here, &there);
}

static uint64_t word_at(const uint8_t *p) { return (uint64_t)be32_at(p) << 32 | be32_at(p + 4); }

void try_line(const uint8_t *s, size_t size) {
    static LineText here;
    Family *f = tried();
    Numbers port, expected;
    LineClass class;
    int i;
    memset(&expected, 0, sizeof expected);
    line_by_grammar(s, size, &here);
    expected.n[0] = here.read ? 1 : 13;
    expected.n[1] = here.offset;
    for (i = 0; i < 3; i++) expected.n[2 + i] = word_at(here.record + 8 * i);
    expected.n[20] = here.count;
    for (i = 0; i < 5; i++) expected.n[21 + i] = word_at(here.kinds + 8 * i), expected.n[26 + i] = word_at(here.bytes + 8 * i);
    port_line(s, size, &port);
    settle(LINE, s, size, &port, &expected);
    class = class_of(s, size, &here);
    if (size > MOST) size = MOST;
    f->classes[class]++;
    f->differences += class == OTHERWISE;
    if (!counts.least_line_size[class] || smaller(s, size, counts.least_line[class], counts.least_line_size[class] - 1)) {
        memcpy(counts.least_line[class], s, size);
        counts.least_line_size[class] = size + 1;
    }
}

void try_pair(const Numbers *a, const Numbers *b, const uint8_t *p, size_t size) {
    settle(PAIR, p, size, a, b);
}

void try_strict_pair(const Numbers *a, const Numbers *b, const uint8_t *p, size_t size) {
    tried()->strict++;
    tried()->refused_14 += a->n[0] == refused_14.n[0] && b->n[0] == refused_14.n[0];
    hold(STRICT_PAIR, p, size, a, b);
}

void try_walk_pair(const Numbers *a, const Numbers *b, const uint8_t *p, size_t size) {
    tried()->walks++;
    count_places(a);
    hold(WALK_PAIR, p, size, a, b);
}

static void try_written(Kind kind, const Asked *asked, const Written *expected, const uint8_t *input, size_t size) {
    Family *f = tried();
    Numbers port, wanted;
    written_numbers(expected, &wanted);
    port_written(asked, expected, &port, &f->calls, &f->refused_15);
    settle(kind, input, size, &port, &wanted);
    if (expected->refusal) return;
    f->multiples[expected->multiple]++;
    if (!f->longest || expected->length < f->shortest) f->shortest = expected->length;
    if (expected->length > f->longest) f->longest = expected->length;
}

void try_raw_of(const uint8_t *o, const witness_observation *given, unsigned window) {
    Written expected;
    Asked asked = {given, NULL, 0, 0};
    oracle_raw(o, window, &expected);
    try_written(RAW_LINE, &asked, &expected, o, OBSERVATION);
}

void try_raw(const uint8_t *o, unsigned window) {
    witness_observation given = observation_of(o);
    try_raw_of(o, &given, window);
}

static void try_stated(const uint8_t *list, size_t size, size_t index, const Written *expected) {
    Asked asked = {NULL, list, size, index};
    uint8_t input[MOST];
    size_t i;
    for (i = 0; i < 8; i++) input[i] = (uint8_t)(index >> (56 - 8 * i));
    memcpy(input + 8, list, size < MOST - 8 ? size : MOST - 8);
    try_written(RECORD_LINE, &asked, expected, input, (size < MOST - 8 ? size : MOST - 8) + 8);
}

void try_record(const uint8_t *list, size_t size, size_t index) {
    Written expected;
    oracle_record(list, size, index, &expected);
    try_stated(list, size, index, &expected);
}

void try_text(const uint8_t *list, size_t size, const uint8_t *text, size_t length) {
    Written expected;
    oracle_record(list, size, 0, &expected);
    if (length > TEXT_MOST) exit(2);
    memcpy(expected.text, text, length);
    expected.length = length;
    try_stated(list, size, 0, &expected);
}
