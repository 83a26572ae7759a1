/* What is written of an observation and of a record, by the original's Displays. */
#include "written.h"
#include "original.h"

#include <stdio.h>
#include <string.h>

static const uint32_t named_quirks = UINT32_C(0x1F03F03F);

static uint64_t word_at(const uint8_t *p) { return (uint64_t)be32_at(p) << 32 | be32_at(p + 4); }

void reading_numbers(const uint8_t *record, uint64_t count, const uint8_t *kinds, const uint8_t *bytes, Numbers *out) {
    int i;
    for (i = 0; i < 3; i++) out->n[10 + i] = word_at(record + 8 * i);
    out->n[20] = count;
    for (i = 0; i < 5; i++) out->n[21 + i] = word_at(kinds + 8 * i), out->n[26 + i] = word_at(bytes + 8 * i);
}

uint64_t mixed(const uint8_t *s, size_t size) {
    uint64_t h = UINT64_C(14695981039346656037);
    while (size--) h = (h ^ *s++) * UINT64_C(1099511628211);
    return h;
}

witness_observation observation_of(const uint8_t *b) {
    witness_observation o = {0};
    o.version = b[0], o.ttl_form = b[1], o.ttl = b[2], o.hops = b[3], o.olen = b[4];
    o.has_mss = b[5], o.mss = (uint16_t)be16_at(b + 6), o.wsize = (uint16_t)be16_at(b + 8), o.tot_hdr = (uint16_t)be16_at(b + 10);
    o.has_wscale = b[12], o.wscale = b[13], o.count = b[14], o.quirks = be32_at(b + 95), o.pclass = b[99];
    o.has_peer_mss = b[100], o.peer_mss = (uint16_t)be16_at(b + 101), o.tos = b[103];
    o.multiple_of = b[104], o.multiple = (uint16_t)be16_at(b + 105);
    memcpy(o.kinds, b + 15, sizeof o.kinds);
    memcpy(o.bytes, b + 55, sizeof o.bytes);
    return o;
}

/* Puts the window as a plain number where the text has a multiple; gives which one it was. */
static int plain_window(Written *w, unsigned window) {
    char digits[8];
    size_t at = 0, end, n = (size_t)sprintf(digits, "%u", window), colons = 0;
    int of_mtu;
    while (colons < 4) colons += w->text[at++] == ':';
    if (w->text[at] != 'm') return 0;
    of_mtu = w->text[at + 1] == 't';
    for (end = at; w->text[end] != ','; end++) {}
    memmove(w->text + at + n, w->text + end, w->length - end);
    memcpy(w->text + at, digits, n);
    w->length = w->length - (end - at) + n;
    return 1 + of_mtu;
}

/* The record that says what an observation does. */
static void record_seen(const uint8_t *o, Written *w) {
    uint32_t quirks = be32_at(o + 95) & named_quirks;
    int i;
    memcpy(w->record, o, 5);
    if (o[1] != 1) w->record[3] = 0;
    if (o[5]) memcpy(w->record + 5, o + 5, 3);
    w->record[8] = 1, memcpy(w->record + 9, o + 8, 2);
    if (o[12]) memcpy(w->record + 11, o + 12, 2);
    w->record[13] = o[99];
    for (i = 0; i < 4; i++) w->record[14 + i] = (uint8_t)(quirks >> (24 - 8 * i));
    w->record[20] = o[14];
    for (i = 0; i < o[14]; i++) w->kinds[i] = o[15 + i], w->bytes[i] = o[15 + i] ? 0 : o[55 + i];
}

void oracle_raw(const uint8_t *o, unsigned window, Written *w) {
    memset(w, 0, sizeof *w);
    if (o[14] > 40) {
        w->refusal = 11;
        return;
    }
    if (original_write_observation(o, w->text, sizeof w->text, &w->length) || w->length > sizeof w->text - 8) w->refusal = 99;
    if (w->refusal) return;
    w->multiple = plain_window(w, window);
    record_seen(o, w);
}

void oracle_record(const uint8_t *list, size_t size, size_t index, Written *w) {
    const uint8_t *record, *entries;
    unsigned i;
    memset(w, 0, sizeof *w);
    w->refusal = (unsigned)table_list(list, size, &w->bad_record);
    if (!w->refusal && index >= be16_at(list)) w->refusal = 23;
    if (w->refusal) return;
    record = list + be16_at(list + 2) + RECORD * index;
    entries = list + be16_at(list + 6) + 2 * be16_at(record + 18);
    if (original_write_record(record, entries, w->text, sizeof w->text, &w->length) || w->length > sizeof w->text) {
        w->refusal = 99;
        return;
    }
    memcpy(w->record, record, 18);
    w->record[20] = record[20];
    for (i = 0; i < record[20]; i++) w->kinds[i] = entries[2 * i], w->bytes[i] = entries[2 * i + 1];
}

void written_numbers(const Written *w, Numbers *out) {
    int i;
    memset(out, 0, sizeof *out);
    for (i = 0; i < 4; i++) out->n[4 * (i > 0) + i] = w->refusal;
    out->n[2] = w->bad_record;
    if (w->refusal) return;
    out->n[0] = out->n[5] = 1;
    out->n[6] = out->n[7] = 15;
    out->n[1] = w->length;
    out->n[3] = out->n[4] = mixed(w->text, w->length);
    out->n[9] = 1;
    reading_numbers(w->record, w->record[20], w->kinds, w->bytes, out);
}
