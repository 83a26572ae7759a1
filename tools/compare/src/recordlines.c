/* The families of records' lines: of records, of lists that are refused, and of lines that were read. */
#include "families.h"
#include "linetext.h"
#include "make.h"
#include "tally.h"
#include "written.h"

#include <string.h>

static void put16(uint8_t *p, unsigned n) { p[0] = (uint8_t)(n >> 8), p[1] = (uint8_t)n; }

static void put32(uint8_t *p, uint32_t n) { put16(p, n >> 16), put16(p + 2, n & 65535); }

static void random_record(Random *r, uint8_t *record, uint8_t *entries) {
    static const uint8_t versions[] = {0, 4, 6};
    unsigned i;
    memset(record, 0, RECORD);
    record[0] = versions[below(r, 3)];
    record[1] = (uint8_t)below(r, 4), record[2] = byte_of(r), record[3] = record[1] == 1 ? byte_of(r) : 0;
    record[4] = byte_of(r);
    if ((record[5] = (uint8_t)chance(r, 70))) put16(record + 6, draw(r) % (chance(r, 50) ? 65536 : 2000));
    if ((record[8] = (uint8_t)below(r, 5))) put16(record + 9, record[8] > 2 ? byte_of(r) : draw(r) % 65536);
    if ((record[11] = (uint8_t)chance(r, 70))) record[12] = byte_of(r);
    record[13] = (uint8_t)below(r, 3);
    put32(record + 14, (chance(r, 20) ? draw(r) : draw(r) & draw(r)) & UINT32_C(0x1F03F03F));
    record[20] = (uint8_t)below(r, chance(r, 60) ? 9 : 41), record[21] = (uint8_t)below(r, 2);
    put16(record + 22, draw(r) % 65536);
    for (i = 0; i < record[20]; i++) {
        entries[2 * i] = byte_of(r);
        entries[2 * i + 1] = entries[2 * i] ? 0 : byte_of(r);
    }
}

static size_t random_list(Random *r, unsigned records, uint8_t *list) {
    unsigned i, all = 0, at = 8 + below(r, 4), entries_at = at + RECORD * records + below(r, 4);
    memset(list, 0, LIST_MOST);
    for (i = 0; i < records; i++) {
        uint8_t *record = list + at + RECORD * i;
        random_record(r, record, list + entries_at + 2 * all);
        put16(record + 18, all);
        all += record[20];
    }
    put16(list, records), put16(list + 2, at), put16(list + 4, all), put16(list + 6, entries_at);
    return entries_at + 2 * all;
}

static void record_lines(unsigned share) {
    uint8_t o[OBSERVATION], list[LIST_MOST];
    Random r = {65}, derived = {66};
    unsigned i, records;
    size_t size;
    family("random records of every form, in lists of 1 to 4", RECORD_LINE);
    for (i = 0; i < 1200000 / share; i++) {
        records = 1 + below(&r, 4);
        size = random_list(&r, records, list);
        try_record(list, size, below(&r, records));
    }
    family("records derived from a packet's observation", RECORD_LINE);
    for (i = 0; i < 300000 / share; i++) {
        if (i % 4 == 0) observe(&derived, o);
        records = 1 + below(&derived, 6);
        size = make_list(&derived, o, records, 3, list);
        try_record(list, size, below(&derived, records));
    }
}

/* A number that no list of so many records has, now and then the greatest one. */
static size_t beyond(Random *r, unsigned records) {
    return chance(r, 10) ? SIZE_MAX - below(r, 3) : records + (chance(r, 70) ? below(r, 3) : (size_t)draw(r) << below(r, 32));
}

static void refused_records(unsigned share) {
    uint8_t list[LIST_MOST];
    Random r = {67}, damaged = {68};
    unsigned i, records;
    size_t size;
    family("numbers that are no record's, lists of 0 to 3", RECORD_LINE);
    for (i = 0; i < 100000 / share; i++) {
        records = below(&r, 4);
        size = random_list(&r, records, list);
        try_record(list, size, beyond(&r, records));
    }
    family("random lists of 0 to 4 records, damaged, any number", RECORD_LINE);
    for (i = 0; i < 400000 / share; i++) {
        records = below(&damaged, 5);
        size = random_list(&damaged, records, list);
        size = damage_list(&damaged, list, size);
        try_record(list, size, chance(&damaged, 80) ? below(&damaged, 5) : beyond(&damaged, records));
    }
}

static void every_list_byte(void) {
    uint8_t list[LIST_MOST], old;
    Random r = {69};
    unsigned records, value;
    size_t size, i, at;
    family("every value of every byte, and every length, of lists of 1 to 3 records, each number", RECORD_LINE);
    for (records = 1; records <= 3; records++) {
        do size = random_list(&r, records, list);
        while (size > 8 + 40 * records);
        for (i = 0; i < size; i++)
            for (old = list[i], value = 0; value < 256; value++, list[i] = old)
                for (list[i] = (uint8_t)value, at = 0; at <= records; at++) try_record(list, size, at);
        for (i = 0; i < size; i++) try_record(list, i, i % (records + 1));
    }
}

/* Every window in every form, and the longest line. */
static void every_record(void) {
    uint8_t list[LIST_MOST] = {0, 1, 0, 8, 0, 40, 0, 32}, *record = list + 8;
    unsigned n, form;
    family("every number in every form of the window, every MSS, every scale; the longest line", RECORD_LINE);
    for (n = 0; n < 65536; n++)
        for (form = 1; form < (n < 256 ? 5 : 3); form++) {
            record[5] = 1, put16(record + 6, 65535 - n), record[8] = (uint8_t)form, put16(record + 9, n);
            record[11] = n % 257 < 256, record[12] = record[11] ? (uint8_t)(n % 257) : 0;
            try_record(list, 112, 0);
        }
    memset(record, 255, RECORD);
    for (n = 0; n < 80; n++) list[32 + n] = n % 2 ? 255 : 0;
    record[0] = 6, record[1] = record[5] = record[11] = 1, record[13] = 2, record[21] = 0;
    record[20] = 40, put16(record + 18, 0), put32(record + 14, UINT32_C(0x1F03F03F));
    for (form = 1; form < 5; form++) {
        record[8] = (uint8_t)form, put16(record + 9, form < 3 ? 65535 : 255);
        try_record(list, 112, 0);
    }
}

/* ---- lines that are read, and written again */

/* The list of the one record that a line says. */
static size_t list_of_one(const LineText *line, uint8_t *list) {
    size_t i;
    put16(list, 1), put16(list + 2, 8), put16(list + 4, (unsigned)line->count), put16(list + 6, 8 + RECORD);
    memcpy(list + 8, line->record, RECORD);
    for (i = 0; i < line->count; i++) list[8 + RECORD + 2 * i] = line->kinds[i], list[8 + RECORD + 2 * i + 1] = line->bytes[i];
    return 8 + RECORD + 2 * line->count;
}

static int is_digit(uint8_t byte) { return byte >= '0' && byte <= '9'; }

/* A line without the zeros before its numbers, up to its quirks; where those begin in it, and in what is given. */
static size_t without_zeros(const uint8_t *s, uint8_t *out, size_t *quirks) {
    size_t i, at = 0, colons = 0;
    for (i = 0; colons < 6; i++) {
        if (s[i] == '0' && is_digit(s[i + 1]) && (i == 0 || !is_digit(s[i - 1]) || at == 0 || !is_digit(out[at - 1]))) continue;
        colons += s[i] == ':';
        out[at++] = s[i];
    }
    *quirks = i;
    return at;
}

static int names(const uint8_t *s, size_t size, const char *word) {
    return size == strlen(word) && memcmp(s, word, size) == 0;
}

/* The line that says the same in written form, from its text alone: no zero before a number, each quirk once and in display order. */
static size_t written_form(const uint8_t *s, size_t size, uint8_t *out) {
    static const char *const words[] = {"df",    "id+",   "id-",    "ecn",  "0+",   "flow", "seq-", "ack+", "ack-",
                                        "uptr+", "urgf+", "pushf+", "ts1-", "ts2+", "opt+", "exws", "bad"};
    size_t from, at = without_zeros(s, out, &from), i, end;
    int w, first = 1;
    for (w = 0; w < 17; w++)
        for (i = from; i < size - 2; i = end + 1) {
            for (end = i; s[end] != ',' && s[end] != ':'; end++) {}
            if (!names(s + i, end - i, words[w])) continue;
            if (!first) out[at++] = ',';
            memcpy(out + at, words[w], strlen(words[w]));
            at += strlen(words[w]), first = 0;
            break;
        }
    memcpy(out + at, s + size - 2, 2);
    return at + 2;
}

static void again_lines(unsigned share) {
    static LineText line;
    uint8_t s[LINE_MOST], list[LIST_MOST], text[LINE_MOST];
    Random r = {70};
    unsigned i;
    size_t size, length;
    family("random lines that are read, in written form if they are not", RECORD_LINE);
    for (i = 0; i < 600000 / share; i++) {
        size = make_line(&r, s);
        line_by_grammar(s, size, &line);
        if (!line.read) continue;
        length = written_form(s, size, text);
        size = list_of_one(&line, list);
        try_text(list, size, text, length);
    }
}

void record_line_families(unsigned share) {
    record_lines(share);
    every_record();
    refused_records(share);
    every_list_byte();
    again_lines(share);
}
