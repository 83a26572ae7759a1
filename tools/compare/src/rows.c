/* Lists whose records are of six sorts, in every order: each record fits exactly, fuzzily or not at all, and is specific or generic. */
#include "families.h"
#include "numbers.h"

#include <string.h>

enum { HEADER = 8, LAYOUT = 5, SORTS = 6, NONE = 2 };

static int rows_of(int records) {
    int n = 1;
    while (records--) n *= SORTS;
    return n;
}

int rows(int most) {
    int k, n = 0;
    for (k = 0; k <= most; k++) n += rows_of(k);
    return n;
}

/* The sorts of a row's records; gives how many there are. */
static int sorts_of(int row, uint8_t sorts[ROW_MOST]) {
    int records = 0, i;
    for (; row >= rows_of(records); records++) row -= rows_of(records);
    for (i = 0; i < records; i++) sorts[i] = (uint8_t)(row % SORTS), row /= SORTS;
    return records;
}

int row_fits(int row) {
    uint8_t sorts[ROW_MOST];
    int i, records = sorts_of(row, sorts);
    for (i = 0; i < records && sorts[i] % 3 != NONE; i++) {}
    return i == records;
}

/* A record that fits fuzzily tells by its hop distance at which place it stands; one that does not fit fails a gate, or by its quirks. */
static void put_record(const uint8_t *o, int i, uint8_t sort, uint8_t *record) {
    record[2] = (uint8_t)(sort % 3 == 1 ? 128 + i : 64);
    record[4] = sort % 3 == NONE && i % 2 == 0;
    record[13] = 2;
    memcpy(record + 14, o + 95, 4);
    if (sort % 3 == NONE && i % 2 == 1) record[16] ^= 0x10;
    record[20] = LAYOUT;
    record[21] = sort / 3;
    record[23] = (uint8_t)(10 * (i + 1) + sort);
}

size_t row(int number, uint8_t *o, uint8_t *list) {
    uint8_t p[BASE_MOST], sorts[ROW_MOST];
    int i, records = sorts_of(number, sorts);
    size_t entries_at = HEADER + RECORD * (size_t)records;
    Numbers n;
    oracle_packet(p, base_packet(0, p), 0, 0, &n, o);
    memset(list, 0, entries_at + 2 * LAYOUT);
    list[1] = (uint8_t)records, list[3] = HEADER, list[5] = LAYOUT, list[7] = (uint8_t)entries_at;
    for (i = 0; i < records; i++) put_record(o, i, sorts[i], list + HEADER + RECORD * i);
    for (i = 0; i < LAYOUT; i++) list[entries_at + 2 * (size_t)i] = o[15 + i];
    return entries_at + 2 * LAYOUT;
}
