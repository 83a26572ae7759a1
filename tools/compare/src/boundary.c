/* Lists of one record, each one step to this or that side of a condition of the documents. */
#include "families.h"
#include "numbers.h"

#include <string.h>

enum { HEADER = 8, LAYOUT = 5, SIZE = HEADER + RECORD + 2 * LAYOUT, EDITS = 3 };

typedef struct {
    uint8_t place, value;
} Edit;

/* Edits of the record, by its own places. The observation has TTL 64, MSS 1460, window 29200 (20 x MSS) and scale 7. */
static const Edit record_edits[][EDITS] = {
    {{0, 4}}, {{0, 6}}, {{0, 1}}, {{0, 5}}, {{0, 7}}, {{1, 1}}, {{1, 1}, {3, 30}}, {{1, 1}, {3, 36}}, {{1, 2}}, {{1, 3}}, {{1, 4}},
    {{3, 1}}, {{1, 2}, {3, 1}}, {{1, 3}, {3, 1}}, {{2, 99}}, {{2, 100}}, {{2, 63}}, {{1, 3}, {2, 63}}, {{1, 3}, {2, 255}},
    {{1, 1}, {2, 200}, {3, 100}}, {{1, 1}, {2, 0}, {3, 64}}, {{2, 0}}, {{2, 255}}, {{4, 1}},
    {{5, 1}, {6, 5}, {7, 0xb4}}, {{5, 1}, {6, 5}, {7, 0xb5}}, {{5, 1}}, {{5, 2}}, {{6, 1}}, {{7, 1}},
    {{8, 1}, {9, 0x72}, {10, 0x10}}, {{8, 1}, {9, 0x72}, {10, 0x11}}, {{8, 2}, {10, 8}}, {{8, 2}, {10, 7}}, {{8, 2}},
    {{8, 2}, {9, 255}, {10, 255}}, {{8, 3}, {10, 20}}, {{8, 3}, {10, 21}}, {{8, 3}, {10, 255}}, {{8, 3}, {9, 1}},
    {{8, 3}, {9, 1}, {10, 20}}, {{8, 4}, {10, 20}}, {{8, 4}, {10, 255}}, {{8, 4}, {9, 1}}, {{8, 5}}, {{9, 1}}, {{10, 1}},
    {{11, 1}, {12, 7}}, {{11, 1}, {12, 8}}, {{11, 1}}, {{11, 2}}, {{12, 1}}, {{13, 0}}, {{13, 1}}, {{13, 3}},
    {{18, 1}}, {{19, 1}}, {{20, 4}}, {{20, 6}}, {{20, 0}}, {{20, 41}}, {{19, 5}, {20, 0}}, {{19, 6}, {20, 0}},
    {{21, 1}}, {{21, 2}}, {{21, 255}}, {{21, 1}, {2, 99}}, {{21, 1}, {2, 100}}, {{21, 2}, {2, 100}}, {{21, 1}, {4, 1}},
    {{22, 255}, {23, 255}},
};

/* Edits by the places of the whole list: its header, and its layout entries from 32 on. */
static const Edit list_edits[][EDITS] = {
    {{1, 0}}, {{1, 2}}, {{0, 1}}, {{3, 18}}, {{3, 19}}, {{2, 1}}, {{5, 6}}, {{5, 4}}, {{4, 1}}, {{7, 33}}, {{7, 31}}, {{6, 1}},
    {{1, 0}, {3, 42}}, {{1, 0}, {3, 43}}, {{1, 0}, {5, 0}, {7, 42}}, {{1, 0}, {5, 0}, {7, 43}}, {{5, 0}, {7, 42}},
    {{33, 1}}, {{41, 1}}, {{32, 0}}, {{32, 0}, {33, 9}}, {{40, 4}}, {{34, 3}},
};

static const uint8_t lengths[] = {0, 1, 7, 8, 31, 32, 41, SIZE, SIZE + 1};

enum {
    OF_RECORD = sizeof record_edits / sizeof *record_edits,
    OF_LIST = OF_RECORD + sizeof list_edits / sizeof *list_edits,
    OF_QUIRKS = OF_LIST + 32,
    OF_LENGTHS = OF_QUIRKS + sizeof lengths,
    OF_COUNTS = OF_LENGTHS + 3
};

static void base(const uint8_t *o, uint8_t *list) {
    static const uint8_t start[HEADER + RECORD] = {0, 1, 0, 8, 0, LAYOUT, 0, 32, 0, 0, 64, 0, 0, 0, 0, 0, 0, 0, 0, 0, 0, 2};
    int i;
    memset(list, 0, 256);
    memcpy(list, start, sizeof start);
    memcpy(list + HEADER + 14, o + 95, 4);
    list[HEADER + 20] = LAYOUT, list[HEADER + 23] = 7;
    for (i = 0; i < LAYOUT; i++) list[32 + 2 * i] = o[15 + i];
}

static void apply(const Edit *edits, uint8_t *at) {
    int i;
    for (i = 0; i < EDITS; i++)
        if (i == 0 || edits[i].place) at[edits[i].place] = edits[i].value;
}

/* Layouts of 39, 40 and 41 no-ops, against an observation of 40. */
static size_t long_layout(unsigned count, uint8_t *o, uint8_t *list) {
    unsigned i;
    o[14] = 40;
    memset(o + 15, 1, 40);
    list[5] = 41, list[HEADER + 20] = (uint8_t)count;
    for (i = 0; i < 41; i++) list[32 + 2 * i] = 1, list[33 + 2 * i] = 0;
    return 32 + 82;
}

int boundaries(void) { return OF_COUNTS; }

size_t boundary(int i, uint8_t *o, uint8_t *list) {
    uint8_t p[BASE_MOST];
    Numbers n;
    oracle_packet(p, base_packet(0, p), 0, 0, &n, o);
    base(o, list);
    if (i < OF_RECORD) {
        apply(record_edits[i], list + HEADER);
    } else if (i < OF_LIST) {
        apply(list_edits[i - OF_RECORD], list);
    } else if (i < OF_QUIRKS) {
        list[HEADER + 14 + (i - OF_LIST) / 8] ^= (uint8_t)(1 << (i - OF_LIST) % 8);
    } else if (i < OF_LENGTHS) {
        return lengths[i - OF_QUIRKS];
    } else {
        return long_layout(39u + (unsigned)(i - OF_LENGTHS), o, list);
    }
    return SIZE;
}
