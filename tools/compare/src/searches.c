/* The families of searches. */
#include "families.h"
#include "make.h"
#include "original.h"
#include "tally.h"

#include <string.h>

/* An observation that no packet need give, its multiplier filled in so that records can be derived from it. */
static void invent(Random *r, uint8_t *o) {
    make_observation(r, o);
    if (o[14] <= 40) original_window_multiplier(o, o + 104);
}

static void derived(const char *name, unsigned times, uint64_t seed, unsigned records, unsigned changes, int invented) {
    uint8_t o[OBSERVATION], list[LIST_MOST];
    Random r = {seed};
    unsigned i;
    family(name, SEARCH);
    for (i = 0; i < times; i++) {
        size_t size;
        if (i % 4 == 0) invented ? invent(&r, o) : observe(&r, o);
        size = make_list(&r, o, records ? records : below(&r, RECORDS_MOST), changes, list);
        try_search(o, list, size);
    }
}

static void damaged(unsigned times) {
    uint8_t o[OBSERVATION], list[LIST_MOST];
    Random r = {8};
    unsigned i;
    family("lists of 0 to 11 records, damaged", SEARCH);
    for (i = 0; i < times; i++) {
        size_t size;
        if (i % 4 == 0) chance(&r, 50) ? invent(&r, o) : observe(&r, o);
        size = make_list(&r, o, below(&r, RECORDS_MOST), 2, list);
        size = damage_list(&r, list, size);
        try_search(o, list, size);
    }
}

static void every_byte(unsigned lists) {
    uint8_t o[OBSERVATION], list[LIST_MOST];
    Random r = {9};
    unsigned i, value;
    size_t size, k;
    family("every value of every byte, and every length, of lists of 1 to 3 records", SEARCH);
    for (i = 0; i < lists; i++) {
        do observe(&r, o); while (o[14] > 8);
        size = make_list(&r, o, 1 + i % 3, i % 2, list);
        for (k = 0; k <= size; k++) try_search(o, list, k);
        for (k = 0; k < size; k++) {
            uint8_t kept = list[k];
            for (value = 0; value < 256; value++) list[k] = (uint8_t)value, try_search(o, list, size);
            list[k] = kept;
        }
    }
}

/* Every pair of an observed TTL and a signature's, of each form. */
static void every_ttl(void) {
    uint8_t o[OBSERVATION], list[LIST_MOST];
    Random r = {10};
    unsigned form, seen, declared, distance;
    size_t size;
    family("every observed TTL x every declared TTL x form, distances 0, 1, 100", SEARCH);
    observe(&r, o);
    size = make_list(&r, o, 1, 0, list);
    for (form = 0; form < 4; form++)
        for (distance = 0; distance < (form == 1 ? 3u : 1u); distance++)
            for (seen = 0; seen < 256; seen++)
                for (declared = 0; declared < 256; declared++) {
                    uint8_t *record = list + be16_at(list + 2);
                    o[1] = 0, o[2] = (uint8_t)seen, o[3] = 0;
                    record[1] = (uint8_t)form, record[2] = (uint8_t)declared;
                    record[3] = distance == 2 ? 100 : (uint8_t)distance;
                    record[21] = declared % 2;
                    try_search(o, list, size);
                }
}

/* The hop distance to report: every two TTLs, of each form. */
static void every_hops(void) {
    static const uint8_t distances[4] = {0, 1, 36, 200};
    unsigned forms, seen, declared, d;
    family("reported hop distances: every observed TTL x every declared TTL x forms x 4 distances", HOPS);
    for (forms = 0; forms < 16; forms++)
        for (d = 0; d < 4; d++)
            for (seen = 0; seen < 256; seen++)
                for (declared = 0; declared < 256; declared++) {
                    uint8_t ttls[6] = {(uint8_t)(forms / 4), (uint8_t)seen, 0, (uint8_t)(forms % 4), (uint8_t)declared, 0};
                    if (ttls[0] == 1) ttls[2] = distances[(d + 1) % 4];
                    if (ttls[3] == 1) ttls[5] = distances[d];
                    try_hops(ttls);
                }
}

/* The table of all TTL bytes. */
static void every_byte_of_the_table(void) {
    unsigned byte;
    family("the table's entry of every TTL byte", TTL);
    for (byte = 0; byte < 256; byte++) try_ttl((uint8_t)byte);
}

static void at_boundaries(void) {
    uint8_t o[OBSERVATION], list[LIST_MOST];
    int i;
    family("one record, a step to either side of each condition", SEARCH);
    for (i = 0; i < boundaries(); i++) {
        size_t size = boundary(i, o, list);
        try_search(o, list, size);
    }
}

static void every_row(void) {
    uint8_t o[OBSERVATION], list[LIST_MOST];
    int i;
    family("every row of up to 6 records: exact, fuzzy or none, specific or generic", SEARCH);
    for (i = 0; i < rows(ROW_MOST); i++) {
        size_t size = row(i, o, list);
        try_search(o, list, size);
    }
}

/* Records many of which fit exactly, as many generic as specific. */
static void mixed_kinds(unsigned times) {
    uint8_t o[OBSERVATION], list[LIST_MOST];
    Random r = {12};
    unsigned i, j;
    family("2 to 8 records, each changed once or not, half of them generic", SEARCH);
    for (i = 0; i < times; i++) {
        unsigned records = 2 + below(&r, 7);
        size_t size;
        if (i % 4 == 0) chance(&r, 50) ? invent(&r, o) : observe(&r, o);
        size = make_list(&r, o, records, 1, list);
        for (j = 0; j < records; j++) list[be16_at(list + 2) + RECORD * j + 21] = (uint8_t)chance(&r, 50);
        try_search(o, list, size);
    }
}

static void every_kind(unsigned lists) {
    uint8_t o[OBSERVATION], list[LIST_MOST];
    Random r = {13};
    unsigned i, j, value, records;
    family("every value of byte 21 of each record, of lists of 1 to 4 records", SEARCH);
    for (i = 0; i < lists; i++) {
        size_t size;
        observe(&r, o);
        records = 1 + i % 4;
        size = make_list(&r, o, records, 1, list);
        for (j = 0; j < records; j++) {
            uint8_t *kind = list + be16_at(list + 2) + RECORD * j + 21, kept = *kind;
            for (value = 0; value < 256; value++) *kind = (uint8_t)value, try_search(o, list, size);
            *kind = kept;
        }
    }
}

void search_families(unsigned share) {
    at_boundaries();
    every_row();
    derived("one record derived from a packet's observation, up to 3 changes", 1500000 / share, 4, 1, 3, 0);
    derived("2 records, derived and changed", 300000 / share, 5, 2, 3, 0);
    derived("0 to 11 records, derived and changed", 600000 / share, 6, 0, 4, 0);
    derived("observations that no packet gives, 0 to 11 records derived and changed", 1000000 / share, 7, 0, 3, 1);
    mixed_kinds(1000000 / share);
    damaged(500000 / share);
    every_byte(share > 12 ? 1 : 12 / share);
    every_kind(share > 50 ? 8 : 400 / share);
    every_ttl();
    every_hops();
    every_byte_of_the_table();
}
