/* The stored signature lines: those at the bounds of the grammar, then random ones that show something new. */
#include "storedlines.h"
#include "linetext.h"
#include "make.h"
#include "original.h"

#include <stdio.h>
#include <stdlib.h>
#include <string.h>

static unsigned written;

static void write_text(const uint8_t *s, size_t size) {
    size_t i;
    for (i = 0; i < size; i++) {
        if (s[i] < 32 || s[i] > 126 || s[i] == '\\') printf("\\x%02x", (unsigned)s[i]);
        else putchar(s[i]);
    }
}

static void write_read(const uint8_t *record, size_t count, const uint8_t *kinds, const uint8_t *bytes) {
    size_t i;
    fputs("ok ", stdout);
    for (i = 0; i < 24; i++) printf("%02x", (unsigned)record[i]);
    putchar(' ');
    if (count == 0) putchar('-');
    for (i = 0; i < count; i++) printf("%02x%02x", (unsigned)kinds[i], (unsigned)bytes[i]);
}

/* A line that the original reads too has the original's answer, another one that of the grammar. */
static void keep(const uint8_t *s, size_t size, const LineText *here) {
    uint8_t record[24], rows[3 * LAYOUT_ENTRIES];
    size_t count;
    int said = original_line(s, size, record, rows, LAYOUT_ENTRIES, &count);
    fputs("line.in ", stdout);
    write_text(s, size);
    fputs("\nline.out ", stdout);
    if (!here->read) printf("refused 13 %zu", here->offset);
    else if (said == 0) write_read(record, count, rows, rows + LAYOUT_ENTRIES);
    else if (here->count == 0) write_read(here->record, here->count, here->kinds, here->bytes);
    else exit(2);
    putchar('\n');
    written++;
}

static void keep_line(const uint8_t *s, size_t size) {
    static LineText here;
    line_by_grammar(s, size, &here);
    keep(s, size, &here);
}

static void keep_text(const char *text) { keep_line((const uint8_t *)text, strlen(text)); }

/* ---- at the bounds */

static void each_place(void) {
    static const char *const bytes[] = {"*:%s:0:*:*,*:mss::0",      "*:%s-:0:*:*,*:mss::0",     "*:1+%s:0:*:*,*:mss::0",
                                        "*:64:%s:*:*,*:mss::0",     "*:64:0:*:mss*%s,*:mss::0", "*:64:0:*:mtu*%s,*:mss::0",
                                        "*:64:0:*:*,%s:mss::0",     "*:64:0:*:*,*:eol+%s::0"};
    static const char *const words[] = {"*:64:0:%s:*,*:mss::0", "*:64:0:*:%s,*:mss::0", "*:64:0:*:%%%s,*:mss::0"};
    static const char *const up_to_255[] = {"0", "255", "256", "0000255", ""};
    static const char *const up_to_65535[] = {"0", "65535", "65536", "000065535", ""};
    char text[128];
    unsigned place, i;
    for (place = 0; place < 8; place++)
        for (i = 0; i < 5; i++) sprintf(text, bytes[place], up_to_255[i]), keep_text(text);
    for (place = 0; place < 3; place++)
        for (i = 0; i < 5; i++) sprintf(text, words[place], up_to_65535[i]), keep_text(text);
}

static void each_kind(void) {
    static const char *const kinds[] = {"?0", "?1", "?2",   "?3",   "?4",  "?5",   "?6",   "?7",
                                        "?8", "?9", "?255", "?256", "?02", "?006", "?999", "?"};
    char text[128];
    unsigned i;
    for (i = 0; i < 16; i++) {
        sprintf(text, "*:64:0:*:*,*:%s:df:0", kinds[i]), keep_text(text);
        if (i % 3 == 2) sprintf(text, "*:64:0:*:*,*:mss,%s,ts:df:0", kinds[i]), keep_text(text);
    }
}

static void each_count(void) {
    char text[512];
    int count, i, at;
    for (count = 38; count <= 42; count++) {
        at = sprintf(text, "*:64:0:*:*,*:");
        for (i = 0; i < count; i++) at += sprintf(text + at, "%s%s", i ? "," : "", i % 2 ? "?9" : "nop");
        sprintf(text + at, ":df:0"), keep_text(text);
    }
    keep_line((const uint8_t *)text, (size_t)at); /* 42 entries and no more */
}

static void each_length(void) {
    static const char tail[] = "64:0:*:*,*:mss,sok,ts:df:+";
    uint8_t s[LINE_LONGEST + 8];
    size_t size;
    for (size = LINE_LONGEST - 1; size <= LINE_LONGEST + 2; size++) {
        memset(s, '0', size);
        keep_line(s, size);
        memcpy(s, "*:", 2);
        keep_line(s, size);
        memcpy(s + size - (sizeof tail - 1), tail, sizeof tail - 1);
        keep_line(s, size);
        s[size - 1] = '\n';
        keep_line(s, size);
    }
}

static void at_the_bounds(void) {
    static const char *const texts[] = {
        "*:64:0:*:mss*4,*:mss:df:0", "*:0:0:*:*,*:::0", "*:64:0:*:*,*:::0", "4:64:0:*:*,*::df:+", "6:64:0:*:*,*:mss:flow:*",
        "4:64:0:*:*,*:mss:flow:0", "6:64:0:*:*,*:mss:df,id+,id-,0+:0", "*:64+?:0:*:*,*:mss::0", "*:64+0:0:*:*,*:mss::0",
        "*:200+100:0:*:*,*:mss::0", "*:255+255:0:*:*,*:mss::0", "*:64-:0:*:*,*:mss::0", "*:64+:0:*:*,*:mss::0", "*:64+?1:0:*:*,*:mss::0",
        "*:64-1:0:*:*,*:mss::0", "*:64++1:0:*:*,*:mss::0", "*:+64:0:*:*,*:mss::0", "*:256", "*:25", "*:25:", "5:64:0:*:*,*:mss::0",
        "*:64:0:*:mss4,*:mss::0", "*:64:0:*:m*4,*:mss::0", "*:64:0:*:*:mss::0", "*:64:0:*:8192:mss::0",
        "*:64:0:*:*,*:mss,:df:0", "*:64:0:*:*,*:,mss:df:0", "*:64:0:*:*,*:mss,,ts:df:0", "*:64:0:*:*,*:eol:df:0", "*:64:0:*:*,*:eol+:df:0",
        "*:64:0:*:*,*:eol+0:df:0", "*:64:0:*:*,*:eol+3,mss:df:0", "*:64:0:*:*,*:eol+0,eol+255:df:0", "*:64:0:*:*,*:MSS:df:0",
        "*:64:0:*:*,*:mss:DF:0", "*:64:0:*:*,*:mss:df,df,df:0", "*:64:0:*:*,*:mss:id+,df:0", "*:64:0:*:*,*:mss:df,:0",
        "*:64:0:*:*,*:mss:,df:0", "*:64:0:*:*,*:mss:df,,id+:0", "*:64:0:*:*,*:mss:ack:0", "*:64:0:*:*,*:mss:ts1+:0",
        "*:64:0:*:*,*:mss:ts2-:0", "*:64:0:*:*,*:mss:id:0", "*:64:0:*:*,*:mss:dfx:0", "*:64:0:*:*,*:mss:ws:0", "*:64:0:*:*,*:df:mss:0",
        "*:64:0:*:*,*:mss:ecn,df,id+,id-,0+,flow,seq-,ack+,ack-,uptr+,urgf+,pushf+,ts1-,ts2+,opt+,exws,bad:0",
        "*:64:0:*:*,*:mss:df:1", "*:64:0:*:*,*:mss:df:", "*:64:0:*:*,*:mss:df", "*:64:0:*:*,*:mss:df:00", "*:64:0:*:*,*:mss:df:0 ",
        " *:64:0:*:*,*:mss:df:0", "*:64:0:*:*,*:mss:df:0\n", "*:64:0:*:*,*:mss\n:df:0", "*:64:0:*:*,*:mss:df:0\r\n",
        "*:64:0:*:*, *:mss:df:0",
        "*:64:0:*:*,*:mss:df:0:0", "*:64:0:*:*,*:mss:df:0\xff", "*:64:0:*:*,*:ms\xc3\xa9:df:0", "*:64:0:*:*,*:mss:d\\:0",
        "*:6\xef\xbc\x94:0:*:*,*:mss::0", "*:64:0:*:*,*:so:df:0", "*:64:0:*:*,*:sac:df:0", "*:64:0:*:*,*:t:df:0", "", "*", ":", "\n", "4:",
        "**", "46", "*:64:0:*:*,*:?2", "*:64:0:*:*,*:?2x", "*:64:0:*:*,*:?20", "*:64:0:*:*,*:?25", "*:64:0:*:*,*:?26", "*:64:0:*:*,*:?0",
    };
    size_t i;
    for (i = 0; i < sizeof texts / sizeof *texts; i++) keep_text(texts[i]);
    each_place();
    each_kind();
    each_count();
    each_length();
}

/* ---- at random */

static int shown[2][4096];

static int is_new(int group, unsigned key) { return shown[group][key]++ == 0; }

/* What sort of byte stands where a line is refused. */
static unsigned sort_of(const uint8_t *s, size_t size, size_t offset) {
    static const char marks[] = ":,*+-?%";
    const char *mark;
    if (offset >= size) return 0;
    mark = strchr(marks, s[offset]);
    if (s[offset] && mark) return 1 + (unsigned)(mark - marks);
    return s[offset] >= '0' && s[offset] <= '9' ? 8 : s[offset] >= 'a' && s[offset] <= 'z' ? 9 : s[offset] < 128 ? 10 : 11;
}

static void offer(const uint8_t *s, size_t size) {
    static LineText here;
    size_t i;
    unsigned colons = 0, fresh;
    line_by_grammar(s, size, &here);
    if (here.read) {
        const uint8_t *r = here.record;
        fresh = (unsigned)is_new(0, (unsigned)(r[0] / 2 * 64 + r[1] * 16 + r[8]));
    } else {
        for (i = 0; i < here.offset && i < size; i++) colons += s[i] == ':';
        fresh = (unsigned)is_new(1, colons * 16 + sort_of(s, size, here.offset));
    }
    if (fresh && size < 160) keep(s, size, &here);
}

unsigned stored_lines(void) {
    uint8_t s[LINE_MOST];
    Random r = {47};
    unsigned i;
    size_t size;
    at_the_bounds();
    for (i = 0; i < 4000; i++) {
        size = make_line(&r, s);
        if (i % 2) size = damage_line(&r, s, size);
        offer(s, size);
    }
    return written;
}
