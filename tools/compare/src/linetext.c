/* A line is judged by an automaton over the grammar's text (grammar.c). One that is accepted is then split at its colons and commas. */
#include "linetext.h"
#include "grammar.h"

#include <string.h>

#define FIELDS \
    "line = ver \":\" ttl \":\" olen \":\" mss \":\" wsize \",\" scale \":\" olayout \":\" quirks \":\" pclass\n" \
    "ver = \"4\" | \"6\" | \"*\"\n" \
    "ttl = byte | byte \"+\" byte | byte \"+?\" | byte \"-\"\n" \
    "olen = byte\n" \
    "mss = \"*\" | word\n" \
    "wsize = \"*\" | word | \"%\" word | \"mss*\" byte | \"mtu*\" byte\n" \
    "scale = \"*\" | byte\n" \
    "quirks = \"\" | quirk { \",\" quirk }\n" \
    "quirk = \"df\" | \"id+\" | \"id-\" | \"ecn\" | \"0+\" | \"flow\" | \"seq-\" | \"ack+\" | \"ack-\" | \"uptr+\" | \"urgf+\"" \
    " | \"pushf+\" | \"ts1-\" | \"ts2+\" | \"opt+\" | \"exws\" | \"bad\"\n" \
    "pclass = \"0\" | \"+\" | \"*\"\n" \
    "byte = { \"0\" } 0..255\n" \
    "word = { \"0\" } 0..65535\n"

static const char here_rules[] = FIELDS
    "olayout = \"\" | entry { \",\" entry }39\n"
    "entry = \"eol+\" byte | \"nop\" | \"mss\" | \"ws\" | \"sok\" | \"sack\" | \"ts\" | \"?\" unnamed\n"
    "unnamed = { \"0\" } ( 6..7 | 9..255 )\n";

static const char original_rules[] = FIELDS
    "olayout = entry { \",\" entry }\n"
    "entry = \"eol+\" byte | \"nop\" | \"mss\" | \"ws\" | \"sok\" | \"sack\" | \"ts\" | \"?\" 0..9 { 0..9 }\n";

/* So many colons stand before the layout. */
enum { LAYOUT_COLONS = 5 };

/* A part of the line. */
typedef struct {
    const uint8_t *at, *end;
} Text;

/* The part up to a byte, or to the end; what is left begins behind that byte. */
static Text cut(Text *rest, uint8_t byte) {
    Text part = *rest;
    const uint8_t *p = rest->at < rest->end ? memchr(rest->at, byte, (size_t)(rest->end - rest->at)) : NULL;
    part.end = p ? p : rest->end;
    rest->at = p ? p + 1 : rest->end;
    return part;
}

static int is(Text t, const char *word) {
    return (size_t)(t.end - t.at) == strlen(word) && memcmp(t.at, word, strlen(word)) == 0;
}

static int begins(Text t, const char *word) {
    return (size_t)(t.end - t.at) >= strlen(word) && memcmp(t.at, word, strlen(word)) == 0;
}

/* The digits from a place on; 65536 stands for all that is more. */
static unsigned number(Text t, size_t from) {
    unsigned n = 0;
    const uint8_t *p;
    for (p = t.at + from; p < t.end && *p >= '0' && *p <= '9'; p++) n = n > 65535 ? 65536 : 10 * n + (*p - '0');
    return n > 65535 ? 65536 : n;
}

static void put_word(uint8_t *p, unsigned n) { p[0] = (uint8_t)(n / 256), p[1] = (uint8_t)n; }

static void put_ttl(uint8_t *record, Text t) {
    const uint8_t *plus = memchr(t.at, '+', (size_t)(t.end - t.at));
    record[2] = (uint8_t)number(t, 0);
    if (t.end[-1] == '-') record[1] = 3;
    else if (t.end[-1] == '?') record[1] = 2;
    else if (plus) record[1] = 1, record[3] = (uint8_t)number(t, (size_t)(plus + 1 - t.at));
}

static void put_window(uint8_t *record, Text t) {
    static const struct {
        const char *word;
        uint8_t form;
    } forms[] = {{"mss*", 3}, {"mtu*", 4}, {"%", 2}, {"", 1}};
    size_t i;
    if (is(t, "*")) return;
    for (i = 0; !begins(t, forms[i].word); i++) {}
    record[8] = forms[i].form;
    put_word(record + 9, number(t, strlen(forms[i].word)));
}

static void put_entry(LineText *line, Text t) {
    static const char *const names[] = {"", "nop", "mss", "ws", "sok", "sack", "", "", "ts"};
    unsigned kind = 0, byte = 0, named = 0;
    if (begins(t, "eol+")) {
        byte = number(t, 4);
    } else if (begins(t, "?")) {
        kind = number(t, 1);
        kind = kind > 255 ? 0 : kind; /* as the original has it */
        named = kind < 6 || kind == 8;
    } else {
        for (kind = 1; !is(t, names[kind]); kind++) {}
    }
    if (line->count < LINE_ENTRIES)
        line->kinds[line->count] = (uint8_t)kind, line->bytes[line->count] = (uint8_t)byte, line->named[line->count] = (uint8_t)named;
    line->count++;
}

static void put_quirk(uint8_t *record, Text t) {
    static const char *const low[] = {"ecn", "df", "id+", "id-", "0+", "flow"};
    static const char *const middle[] = {"seq-", "ack+", "ack-", "uptr+", "urgf+", "pushf+"};
    static const char *const high[] = {"ts1-", "ts2+", "opt+", "exws", "bad"};
    unsigned i, bit = 32;
    for (i = 0; i < 6; i++)
        if (is(t, low[i])) bit = i;
    for (i = 0; i < 6; i++)
        if (is(t, middle[i])) bit = 12 + i;
    for (i = 0; i < 5; i++)
        if (is(t, high[i])) bit = 24 + i;
    record[17 - bit / 8] |= (uint8_t)(1u << bit % 8);
}

/* The record and layout of a line that the grammar accepts. */
static void put_line(LineText *line, const uint8_t *s, size_t size) {
    Text rest = {s, s + size}, field, part;
    uint8_t *r = line->record;
    field = cut(&rest, ':');
    r[0] = is(field, "*") ? 0 : (uint8_t)number(field, 0);
    put_ttl(r, cut(&rest, ':'));
    r[4] = (uint8_t)number(cut(&rest, ':'), 0);
    field = cut(&rest, ':');
    if (!is(field, "*")) r[5] = 1, put_word(r + 6, number(field, 0));
    put_window(r, cut(&rest, ','));
    field = cut(&rest, ':');
    if (!is(field, "*")) r[11] = 1, r[12] = (uint8_t)number(field, 0);
    for (field = cut(&rest, ':'); field.at < field.end;) part = cut(&field, ','), put_entry(line, part);
    for (field = cut(&rest, ':'); field.at < field.end;) part = cut(&field, ','), put_quirk(r, part);
    r[13] = is(rest, "+") ? 1 : is(rest, "*") ? 2 : 0;
    r[20] = (uint8_t)line->count;
}

void line_by_grammar(const uint8_t *s, size_t size, LineText *line) {
    static Grammar *grammar;
    if (!grammar) grammar = grammar_of(here_rules);
    memset(line, 0, sizeof *line);
    line->offset = size > LINE_LONGEST ? LINE_LONGEST : grammar_refuses(grammar, s, size);
    line->read = line->offset == SIZE_MAX;
    if (line->read) line->offset = 0, put_line(line, s, size);
}

void line_by_original(const uint8_t *s, size_t size, LineText *line) {
    static Grammar *grammar;
    if (!grammar) grammar = grammar_of(original_rules);
    memset(line, 0, sizeof *line);
    line->read = grammar_refuses(grammar, s, size) == SIZE_MAX;
    if (line->read) put_line(line, s, size);
}

/* The entry in which a byte stands, or which it ends. */
static Text entry_at(const uint8_t *s, size_t size, size_t offset) {
    Text t = {s + offset, s + offset};
    while (t.at > s && t.at[-1] != ',' && t.at[-1] != ':') t.at--;
    while (t.end < s + size && *t.end != ',' && *t.end != ':') t.end++;
    return t;
}

LineClass class_of_line(const uint8_t *s, size_t size, const LineText *here, const LineText *there) {
    Text entry;
    size_t i, commas = 0, colons = 0;
    if (here->read == there->read) return ALIKE; /* where both are read their values are compared */
    if (here->read) return here->count == 0 ? EMPTY_LAYOUT : OTHERWISE;
    if (size > LINE_LONGEST) return OVER_512_BYTES;
    if (here->offset >= size) return OTHERWISE;
    for (i = 0; i < here->offset; i++) {
        colons += s[i] == ':';
        commas += colons == LAYOUT_COLONS && s[i] == ',';
    }
    if (colons != LAYOUT_COLONS) return OTHERWISE;
    entry = entry_at(s, size, here->offset);
    if (begins(entry, "?") && number(entry, 1) > 255) return KIND_OVER_255;
    if (begins(entry, "?") && (number(entry, 1) < 6 || number(entry, 1) == 8)) return NAMED_KIND;
    return s[here->offset] == ',' && commas == LAYOUT_ENTRIES - 1 ? OVER_40_ENTRIES : OTHERWISE;
}
