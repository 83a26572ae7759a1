/* The original's answers in the common numbering. */
#include "numbers.h"
#include "original.h"

#include <string.h>

static uint64_t word_at(const uint8_t *p) { return (uint64_t)be32_at(p) << 32 | be32_at(p + 4); }

static uint64_t present16(const uint8_t *p) { return p[0] ? 65536u + be16_at(p + 1) : 0; }

static void layout_numbers(unsigned count, const uint8_t *kinds, const uint8_t *bytes, Numbers *out) {
    int i;
    out->n[20] = count;
    for (i = 0; i < 5; i++) {
        out->n[21 + i] = word_at(kinds + 8 * i);
        out->n[26 + i] = word_at(bytes + 8 * i);
    }
}

static void observation_numbers(const uint8_t *o, Numbers *out) {
    out->n[1] = o[0];
    out->n[2] = o[1] * 65536u + o[2] * 256u + o[3];
    out->n[3] = o[4];
    out->n[4] = o[103];
    out->n[5] = be16_at(o + 10);
    out->n[6] = be32_at(o + 95);
    out->n[7] = present16(o + 5);
    out->n[8] = be16_at(o + 8);
    out->n[9] = o[12] ? 65536u + o[13] : 0;
    out->n[10] = o[99];
    out->n[11] = present16(o + 100);
    out->n[12] = o[104] ? o[104] * 65536u + be16_at(o + 105) : 0;
    layout_numbers(o[14], o + 15, o + 55, out);
}

/* The refusal that the original's error stands for. It has one error for 5 and 6: there the table chooses, and anything
   that the table does not confirm becomes 99, which no port answers. */
static unsigned original_refusal(uint8_t answer, int row) {
    if (answer == 3) return 4;
    if (answer == 4) return row == 5 || row == 6 ? (unsigned)row : 99;
    if (answer == 5) return 7;
    return 99;
}

void oracle_packet(const uint8_t *p, size_t size, uint16_t peer, int present, Numbers *out, uint8_t *observation) {
    uint8_t answer[111], flags;
    int row = table_packet(p, size, &flags);
    memset(out, 0, sizeof *out);
    out->n[1] = 4; /* the empty observation */
    if (row >= 1 && row <= 3) {
        out->n[0] = 256u * (unsigned)row;
        return;
    }
    original_observe(p, size, (uint8_t)(present || peer), peer, answer);
    if (answer[0] == 0) {
        out->n[0] = 3;
    } else if (answer[0] > 2) {
        out->n[0] = 256u * original_refusal(answer[0], row) + (answer[0] == 5 ? answer[1] : 0);
    } else {
        out->n[0] = answer[0];
        observation_numbers(answer + 1, out);
        if (observation) memcpy(observation, answer + 1, OBSERVATION);
    }
}

void oracle_options(const uint8_t *s, size_t size, Numbers *out) {
    uint8_t answer[87];
    memset(out, 0, sizeof *out);
    if (size > 40) {
        out->n[0] = 8;
        return;
    }
    original_parse_options(s, size, answer);
    out->n[0] = 1;
    out->n[1] = answer[0];
    out->n[2] = present16(answer + 1);
    out->n[3] = answer[4] ? 65536u + answer[5] : 0;
    layout_numbers(answer[6], answer + 7, answer + 47, out);
}

/* The first record of each sort that a search may answer with, and its fit; -1 if there is none. */
enum { SPECIFIC, GENERIC, FUZZY, SORTS };
typedef struct {
    long at[SORTS];
    uint8_t fits[SORTS][14];
} Firsts;

/* Gives 1 if the original does not know a code. Of byte 21 it knows nothing. */
static int find_firsts(const uint8_t *o, const uint8_t *list, Firsts *firsts) {
    long i;
    int sort;
    for (sort = 0; sort < SORTS; sort++) firsts->at[sort] = -1;
    for (i = 0; i < (long)be16_at(list); i++) {
        const uint8_t *record = list + be16_at(list + 2) + 24 * i;
        uint8_t fit[14];
        if (original_fit(record, list + be16_at(list + 6) + 2 * be16_at(record + 18), o, fit)) return 1;
        sort = fit[0] == 2 ? FUZZY : record[21] ? GENERIC : SPECIFIC;
        if (fit[0] == 0 || firsts->at[sort] >= 0) continue;
        firsts->at[sort] = i;
        memcpy(firsts->fits[sort], fit, sizeof fit);
    }
    return 0;
}

static void found_numbers(int sort, const uint8_t fit[14], const uint8_t *record, Numbers *out) {
    out->n[0] = (sort == FUZZY ? 196608u : 131072u) + be16_at(record + 22);
    out->n[6] = record[21];
    if (sort != FUZZY) return;
    out->n[2] = fit[1] ? 65536u + be32_at(fit + 2) : 0;
    out->n[3] = be32_at(fit + 6);
    out->n[4] = be32_at(fit + 10);
}

/* "first specific exact, else first generic exact, else first fuzzy of either kind", else none, over single fits; and "the position of the
   specific exact record that ended it, counted from one, or the size of the list if none did". */
int oracle_search(const uint8_t *o, const uint8_t *list, size_t size, Numbers *out) {
    size_t index;
    Firsts firsts;
    int sort, refused = o[14] > 40 ? 11 : table_list(list, size, &index);
    memset(out, 0, sizeof *out);
    if (refused == 10) out->n[1] = index;
    out->n[0] = refused ? (unsigned)refused : 65536;
    if (refused) return 0;
    if (find_firsts(o, list, &firsts)) return out->n[0] = 99, 0;
    out->n[7] = firsts.at[SPECIFIC] < 0 ? be16_at(list) : (uint64_t)firsts.at[SPECIFIC] + 1;
    for (sort = 0; sort < SORTS && firsts.at[sort] < 0; sort++) {}
    if (sort == SORTS) return 0;
    out->n[5] = (uint64_t)firsts.at[sort];
    found_numbers(sort, firsts.fits[sort], list + be16_at(list + 2) + 24 * firsts.at[sort], out);
    return (sort < GENERIC && firsts.at[GENERIC] >= 0 && firsts.at[GENERIC] < firsts.at[sort] ? PASSED_GENERIC : 0) |
           (sort < FUZZY && firsts.at[FUZZY] >= 0 && firsts.at[FUZZY] < firsts.at[sort] ? PASSED_FUZZY : 0);
}

void oracle_hops(const uint8_t ttls[6], Numbers *out) {
    memset(out, 0, sizeof *out);
    out->n[0] = (uint64_t)original_report_hop_distance(ttls, ttls + 3);
}

void oracle_ttl(uint8_t byte, Numbers *out) {
    uint8_t reading[3];
    int i;
    memset(out, 0, sizeof *out);
    original_calculate_ttl(byte, reading);
    for (i = 0; i < 3; i++) out->n[i] = reading[i];
    out->n[3] = original_guess_distance(byte);
}
