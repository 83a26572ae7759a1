/* Random signature lines. */
#include "linetext.h"
#include "make.h"

#include <stdio.h>
#include <string.h>

static const char *const quirk_words[] = {"df",    "id+",   "id-",    "ecn",  "0+",   "flow", "seq-", "ack+", "ack-",
                                          "uptr+", "urgf+", "pushf+", "ts1-", "ts2+", "opt+", "exws", "bad"};
static const char *const entry_words[] = {"nop", "mss", "ws", "sok", "sack", "ts", "eol+", "?"};
static const char alphabet[] = "0123456789:,+-*?%abcdefghiklmnopqrstuwxy";

enum { QUIRK_WORDS = 17, ENTRY_WORDS = 8 };

static size_t put_text(uint8_t *s, size_t at, const char *text) {
    size_t length = strlen(text);
    memcpy(s + at, text, length);
    return at + length;
}

static size_t put_zeros(Random *r, uint8_t *s, size_t at) {
    size_t zeros = chance(r, 88) ? 0 : chance(r, 80) ? 1 + below(r, 3) : below(r, 60);
    memset(s + at, '0', zeros);
    return at + zeros;
}

/* A number up to `most`, its boundaries more often than others, and now and then one over it. */
static size_t put_number(Random *r, uint8_t *s, size_t at, unsigned most) {
    static const unsigned telling[] = {0, 1, 9, 10, 14, 64, 99, 100, 128, 199, 200, 249, 250, 254, 255};
    unsigned n = chance(r, 50) ? telling[below(r, 15)] : below(r, most + 1);
    char digits[16];
    if (most > 255 && chance(r, 30)) n = chance(r, 50) ? 65535 - below(r, 40) : 255 + below(r, 3);
    if (chance(r, 1)) n = chance(r, 60) ? most + 1 : most + below(r, 10 * most);
    sprintf(digits, "%u", n);
    return put_text(s, put_zeros(r, s, at), digits);
}

static size_t put_ttl(Random *r, uint8_t *s, size_t at) {
    at = put_number(r, s, at, 255);
    switch (below(r, 5)) {
    case 0: return put_text(s, at, "-");
    case 1: return put_text(s, at, "+?");
    case 2: return put_number(r, s, put_text(s, at, "+"), 255);
    default: return at;
    }
}

static size_t put_window(Random *r, uint8_t *s, size_t at) {
    switch (below(r, 5)) {
    case 0: return put_text(s, at, "*");
    case 1: return put_number(r, s, at, 65535);
    case 2: return put_number(r, s, put_text(s, at, "%"), 65535);
    case 3: return put_number(r, s, put_text(s, at, "mss*"), 255);
    default: return put_number(r, s, put_text(s, at, "mtu*"), 255);
    }
}

/* `?n` mostly of a kind without a name. */
static size_t put_unknown(Random *r, uint8_t *s, size_t at) {
    unsigned kind = 9 + below(r, 247);
    char digits[16];
    if (chance(r, 20)) kind = 6 + below(r, 2);
    if (chance(r, 5)) kind = below(r, 9);
    if (chance(r, 3)) kind = chance(r, 50) ? 256 : below(r, 100000);
    sprintf(digits, "%u", kind);
    return put_text(s, put_zeros(r, s, put_text(s, at, "?")), digits);
}

static size_t put_entry(Random *r, uint8_t *s, size_t at) {
    unsigned which = below(r, ENTRY_WORDS);
    if (which == 7) return put_unknown(r, s, at);
    at = put_text(s, at, entry_words[which]);
    return which == 6 ? put_number(r, s, at, 255) : at;
}

/* So many entries: mostly few, sometimes about forty. */
static unsigned entry_count(Random *r) {
    if (chance(r, 6)) return 0;
    if (chance(r, 80)) return 1 + below(r, 8);
    return chance(r, 60) ? 38 + below(r, 5) : below(r, 60);
}

static size_t put_layout(Random *r, uint8_t *s, size_t at) {
    unsigned count = entry_count(r), i;
    for (i = 0; i < count; i++) at = put_entry(r, s, i ? put_text(s, at, ",") : at);
    return at;
}

static size_t put_quirks(Random *r, uint8_t *s, size_t at) {
    unsigned count = chance(r, 20) ? 0 : chance(r, 85) ? 1 + below(r, 5) : below(r, 25), i;
    for (i = 0; i < count; i++) at = put_text(s, i ? put_text(s, at, ",") : at, quirk_words[below(r, QUIRK_WORDS)]);
    return at;
}

static size_t put_any_or(Random *r, uint8_t *s, size_t at, unsigned most) {
    return chance(r, 40) ? put_text(s, at, "*") : put_number(r, s, at, most);
}

/* Zeros before the option length until the line has a given length. */
static size_t lengthened(uint8_t *s, size_t size, size_t place, size_t wanted) {
    if (wanted <= size) return size;
    memmove(s + place + (wanted - size), s + place, size - place);
    memset(s + place, '0', wanted - size);
    return wanted;
}

size_t make_line(Random *r, uint8_t *s) {
    static const char *const versions[] = {"4", "6", "*", "*"};
    static const char *const payloads[] = {"0", "0", "+", "*"};
    size_t at = put_text(s, put_text(s, 0, versions[below(r, 4)]), ":"), place;
    at = put_text(s, put_ttl(r, s, at), ":");
    place = at;
    at = put_text(s, put_number(r, s, at, 255), ":");
    at = put_text(s, put_any_or(r, s, at, 65535), ":");
    at = put_text(s, put_window(r, s, at), ",");
    at = put_text(s, put_any_or(r, s, at, 255), ":");
    at = put_text(s, put_layout(r, s, at), ":");
    at = put_text(s, put_quirks(r, s, at), ":");
    at = put_text(s, at, payloads[below(r, 4)]);
    if (chance(r, 6)) at = lengthened(s, at, place, chance(r, 80) ? LINE_LONGEST - 4 + below(r, 9) : LINE_LONGEST + below(r, 600));
    return at;
}

static uint8_t letter(Random *r) {
    return chance(r, 92) ? (uint8_t)alphabet[below(r, sizeof alphabet - 1)] : (uint8_t)draw(r);
}

size_t damage_line(Random *r, uint8_t *s, size_t size) {
    size_t at = below(r, (uint32_t)size + 1), more;
    uint8_t kept;
    switch (below(r, 7)) {
    case 0: case 1: /* put in: a byte of the line itself, or another */
        kept = size && chance(r, 40) ? s[below(r, (uint32_t)size)] : letter(r);
        memmove(s + at + 1, s + at, size - at);
        s[at] = kept;
        return size + 1;
    case 2:
        if (at == size) return size;
        memmove(s + at, s + at + 1, size - at - 1);
        return size - 1;
    case 3:
        if (at < size) s[at] = letter(r);
        return size;
    case 4:
        if (at + 1 >= size) return size;
        kept = s[at], s[at] = s[at + 1], s[at + 1] = kept;
        return size;
    case 5: return chance(r, 50) ? at : size - (size > 0);
    default:
        for (more = 1 + below(r, 3); more > 0; more--) s[size++] = chance(r, 10) ? "\n\r \t"[below(r, 4)] : letter(r);
        return size;
    }
}

/* The beginning of a line up to some field, or none. */
static size_t put_beginning(Random *r, uint8_t *s) {
    static const char *const beginnings[] = {"",          "",           "4:",            "*:64:",             "6:64+?:0:",
                                             "*:64:0:*:", "4:64:0:*:*,", "*:64:0:*:*,*:", "*:64:0:*:*,*:mss,", "*:64:0:*:*,*:mss:df,"};
    return put_text(s, 0, beginnings[below(r, 10)]);
}

size_t make_words(Random *r, uint8_t *s) {
    static const char *const marks[] = {":", ":", ":", ",", ",", "*", "+", "-", "+?", "%", "mss*", "mtu*", "?", "eol+", "eol", "0", " "};
    size_t at = put_beginning(r, s);
    unsigned i, count = below(r, 12);
    for (i = 0; i < count; i++) switch (below(r, 5)) {
        case 0: at = put_text(s, at, entry_words[below(r, ENTRY_WORDS)]); break;
        case 1: at = put_text(s, at, quirk_words[below(r, QUIRK_WORDS)]); break;
        case 2: at = put_number(r, s, at, chance(r, 50) ? 255 : 65535); break;
        default: at = put_text(s, at, marks[below(r, 17)]); break;
        }
    return at;
}

size_t make_letters(Random *r, uint8_t *s) {
    size_t i = put_beginning(r, s), size = i + (chance(r, 90) ? below(r, 12) : below(r, 700));
    for (; i < size; i++) s[i] = (uint8_t)alphabet[below(r, sizeof alphabet - 1)];
    return size;
}
