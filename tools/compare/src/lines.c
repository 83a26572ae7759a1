/* The families of signature lines. */
#include "families.h"
#include "linetext.h"
#include "make.h"
#include "tally.h"

#include <stdio.h>
#include <string.h>

enum { TEXTS = LINES - 3 };

static const char *const texts[TEXTS] = {
    "*:64:0:*:mss*4,*:mss:df:0",
    "4:54+10:8:1460:8192,7:mss,nop,ws,sok,ts,eol+1:df,id+,ts1-:+",
    "6:128+?:255:65535:%65535,255:?6,?7,?9,?255,sack,?200:ecn,0+,flow,seq-,ack+,ack-,uptr+,urgf+,pushf+,ts2+,opt+,exws,bad,id-:*",
    "*:0:0:*:*,*:::0",
    "6:0-:000:0:mtu*255,000:::0",
    "4:255+255:0:*:mss*0,14:mss,mss,?10,eol+255::*",
    "*:200+100:40:00536:*,0:sok,?0019,eol+0,nop:df,df,id+:0",
};

/* A line of a given length: zeros before the digits of its TTL. */
static void put_long(uint8_t *s, size_t size) {
    static const char tail[] = "64:0:*:*,*:mss,sok,ts:df:+";
    memset(s, '0', size);
    memcpy(s, "*:", 2);
    memcpy(s + size - (sizeof tail - 1), tail, sizeof tail - 1);
}

/* Then one of forty entries, one of forty-one, and one of 512 bytes. */
size_t base_line(int i, uint8_t *s) {
    size_t at = 0;
    int entries = i == TEXTS ? 40 : 41, k;
    if (i < TEXTS) {
        memcpy(s, texts[i], strlen(texts[i]));
        return strlen(texts[i]);
    }
    if (i == LINES - 1) {
        put_long(s, LINE_LONGEST);
        return LINE_LONGEST;
    }
    at = (size_t)sprintf((char *)s, "*:64:0:*:*,*:");
    for (k = 0; k < entries; k++) at += (size_t)sprintf((char *)s + at, "%s%s", k ? "," : "", k % 3 ? "ws" : "?77");
    return at + (size_t)sprintf((char *)s + at, ":df:0");
}

/* A byte replaced at each place, put in at each place, and behind each beginning. */
static void every_byte(void) {
    uint8_t s[LINE_MOST], t[LINE_MOST];
    size_t size, i;
    int base, value;
    family("every byte replaced, put in, and behind each beginning, of 10 base lines", LINE);
    for (base = 0; base < LINES; base++) {
        size = base_line(base, s);
        for (i = 0; i <= size; i++)
            for (value = 0; value < 256; value++) {
                memcpy(t, s, size);
                if (i < size) t[i] = (uint8_t)value, try_line(t, size);
                memcpy(t, s, i), t[i] = (uint8_t)value, memcpy(t + i + 1, s + i, size - i);
                try_line(t, size + 1);
                if (size < 200) try_line(t, i + 1);
            }
    }
}

/* Each beginning, each ending, each line with one byte left out, two exchanged, or doubled. */
static void every_cut(unsigned share) {
    uint8_t s[LINE_MOST], t[LINE_MOST];
    Random r = {41};
    size_t size, i;
    unsigned line, lines = LINES + 800 / share;
    family("every beginning and ending, every byte left out or two exchanged, of 810 lines", LINE);
    for (line = 0; line < lines; line++) {
        size = line < LINES ? base_line((int)line, s) : make_line(&r, s);
        for (i = 0; i <= size; i++) {
            try_line(s, i);
            try_line(s + i, size - i);
            if (i < size) {
                memcpy(t, s, i), memcpy(t + i, s + i + 1, size - i - 1);
                try_line(t, size - 1);
            }
            if (i + 1 < size) {
                memcpy(t, s, size), t[i] = s[i + 1], t[i + 1] = s[i];
                try_line(t, size);
            }
        }
    }
}

static void try_text(const char *text) { try_line((const uint8_t *)text, strlen(text)); }

/* Every number in every place that takes one, up to a few over its bound, with 0 to 2 zeros before it. */
static void every_number(void) {
    static const char *const words[] = {"*:64:0:%s:*,*:mss::0", "*:64:0:*:%s,*:mss::0", "*:64:0:*:%%%s,*:mss::0"};
    static const char *const bytes[] = {"*:%s:0:*:*,*:mss::0",     "*:%s+?:0:*:*,*:mss::0",   "*:%s-:0:*:*,*:mss::0",
                                        "*:%s+1:0:*:*,*:mss::0",   "*:1+%s:0:*:*,*:mss::0",   "*:64:%s:*:*,*:mss::0",
                                        "*:64:0:*:mss*%s,*:mss::0", "*:64:0:*:mtu*%s,*:mss::0", "*:64:0:*:*,%s:mss::0",
                                        "*:64:0:*:*,*:eol+%s::0",  "*:64:0:*:*,*:?%s::0",     "*:64:0:*:*,*:?%s,ts::0"};
    static const char *const zeros[] = {"", "0", "00"};
    char digits[32], text[128];
    unsigned place, n, z;
    family("every number in every place, up to 70000 or 2600, with 0 to 2 zeros before it", LINE);
    for (z = 0; z < 3; z++) {
        for (n = 0; n <= 70000; n += z ? 7 : 1)
            for (sprintf(digits, "%s%u", zeros[z], n), place = 0; place < 3; place++) sprintf(text, words[place], digits), try_text(text);
        for (n = 0; n <= 2600; n++)
            for (sprintf(digits, "%s%u", zeros[z], n), place = 0; place < 12; place++) sprintf(text, bytes[place], digits), try_text(text);
    }
}

/* Every length about 512 of a good line, of its beginning with other bytes behind it, and of one byte alone. */
static void every_length(void) {
    static const uint8_t fill[] = {'0', ':', '*', 'x', '\n', ' ', 255, 0};
    uint8_t s[LINE_MOST];
    size_t size, i;
    family("every length up to 600 of zeros within a line, and of single bytes alone and behind a line", LINE);
    for (size = 28; size <= 600; size++) {
        put_long(s, size);
        try_line(s, size);
        for (i = 0; i < sizeof fill; i++) s[size - 1] = fill[i], try_line(s, size);
        put_long(s, 28);
        for (i = 0; i < sizeof fill; i++) memset(s + 28, fill[i], size - 28), try_line(s, size);
    }
    for (size = 0; size <= 600; size++)
        for (i = 0; i < sizeof fill; i++) memset(s, fill[i], size), try_line(s, size);
}

/* Every layout of up to three entries, every list of up to three quirks, each count of entries. */
static void every_row(void) {
    static const char *const entries[] = {"nop", "mss", "ws", "sok", "sack", "ts", "eol+3", "?6", "?2", "?256", "", "eol", "?"};
    static const char *const quirks[] = {"df",    "id+",    "id-",  "ecn",  "0+",   "flow", "seq-", "ack+", "ack-", "uptr+",
                                         "urgf+", "pushf+", "ts1-", "ts2+", "opt+", "exws", "bad",  ""};
    char text[512];
    int a, b, c, at;
    family("every layout of up to 3 of 13 entries, all quirks up to 3 of 18, every count of an entry up to 45", LINE);
    for (a = 0; a < 13; a++)
        for (b = 0; b < 13; b++)
            for (c = 0; c < 13; c++) {
                sprintf(text, "*:0:0:*:*,*:%s,%s,%s::0", entries[a], entries[b], entries[c]), try_text(text);
                if (c == 0) sprintf(text, "*:0:0:*:*,*:%s,%s::0", entries[a], entries[b]), try_text(text);
                if (b == 0 && c == 0) sprintf(text, "*:0:0:*:*,*:%s::0", entries[a]), try_text(text);
            }
    for (a = 0; a < 18; a++)
        for (b = 0; b < 18; b++)
            for (c = 0; c < 18; c++) {
                sprintf(text, "*:64:0:*:*,*:mss:%s,%s,%s:0", quirks[a], quirks[b], quirks[c]), try_text(text);
                if (c == 0) sprintf(text, "*:64:0:*:*,*:mss:%s,%s:0", quirks[a], quirks[b]), try_text(text);
                if (b == 0 && c == 0) sprintf(text, "*:64:0:*:*,*:mss:%s:0", quirks[a]), try_text(text);
            }
    for (a = 0; a < 13; a++)
        for (b = 0; b <= 45; b++) {
            for (at = sprintf(text, "*:0:0:*:*,*:"), c = 0; c < b; c++) at += sprintf(text + at, "%s%s", c ? "," : "", entries[a]);
            sprintf(text + at, "::0"), try_text(text);
        }
}

/* Text of more than one byte a letter, which the original can be asked: a letter, digits one of other scripts, a wide colon and comma. */
static void every_letter(void) {
    static const char *const letters[] = {"\xc3\xa9", "\xd9\xa1", "\xef\xbc\x91", "\xf0\x9d\x9f\x8f", "\xef\xbc\x9a", "\xef\xbc\x8c"};
    uint8_t s[LINE_MOST], t[LINE_MOST];
    size_t size, i, more;
    int base, k;
    family("six letters of 2 to 4 bytes put in and for each byte, of 10 base lines", LINE);
    for (base = 0; base < LINES; base++)
        for (size = base_line(base, s), i = 0; i <= size; i++)
            for (k = 0; k < 6; k++) {
                more = strlen(letters[k]);
                memcpy(t, s, i), memcpy(t + i, letters[k], more), memcpy(t + i + more, s + i, size - i);
                try_line(t, size + more);
                if (i < size) memcpy(t + i + more, s + i + 1, size - i - 1), try_line(t, size + more - 1);
            }
}

static void random_bytes(unsigned share) {
    uint8_t s[LINE_MOST];
    Random r = {46};
    unsigned i;
    size_t k, size;
    family("random bytes", LINE);
    for (i = 0; i < 100000 / share; i++) {
        size = chance(&r, 80) ? below(&r, 24) : below(&r, 700);
        for (k = 0; k < size; k++) s[k] = (uint8_t)draw(&r);
        try_line(s, size);
    }
}

void line_families(unsigned share) {
    uint8_t s[LINE_MOST];
    Random good = {42}, damaged = {43}, words = {44}, letters = {45};
    unsigned i, changes;
    size_t size;
    every_byte();
    every_cut(share);
    every_number();
    every_length();
    every_row();
    every_letter();
    family("random lines of all forms", LINE);
    for (i = 0; i < 600000 / share; i++) try_line(s, make_line(&good, s));
    family("the same, with 1 to 3 changes", LINE);
    for (i = 0; i < 800000 / share; i++) {
        size = make_line(&damaged, s);
        for (changes = 1 + below(&damaged, 3); changes > 0; changes--) size = damage_line(&damaged, s, size);
        try_line(s, size);
    }
    family("words of the grammar in any order, behind a beginning or none", LINE);
    for (i = 0; i < 150000 / share; i++) try_line(s, make_words(&words, s));
    family("random bytes of the grammar's alphabet, behind a beginning or none", LINE);
    for (i = 0; i < 150000 / share; i++) try_line(s, make_letters(&letters, s));
    random_bytes(share);
}
