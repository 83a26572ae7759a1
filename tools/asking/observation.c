/* An observation as text. */
#include "asking.h"

#include <inttypes.h>
#include <stdio.h>
#include <string.h>

enum { LAYOUT_MOST = 40 };

/* The forms of a TTL, by their codes. */
static const char *const ttl_forms[] = {"value:", "distance:", "guess:", "bad:"};
enum { TTL_FORMS = 4, DISTANCE = 1 };

/* ' NAME=' and a number, into a field of one byte or of two. */
static int scan_field8(Line *line, const char *name, uint8_t *field) {
    uint32_t number;
    if (!scan_text(line, name) || !scan_number(line, UINT8_MAX, &number)) return 0;
    *field = (uint8_t)number;
    return 1;
}

static int scan_field16(Line *line, const char *name, uint16_t *field) {
    uint32_t number;
    if (!scan_text(line, name) || !scan_number(line, UINT16_MAX, &number)) return 0;
    *field = (uint16_t)number;
    return 1;
}

/* The same of a number that may be absent. */
static int scan_optional8(Line *line, const char *name, uint8_t *present, uint8_t *field) {
    uint32_t number;
    if (!scan_text(line, name) || !scan_absent_or(line, UINT8_MAX, present, &number)) return 0;
    *field = (uint8_t)number;
    return 1;
}

static int scan_optional16(Line *line, const char *name, uint8_t *present, uint16_t *field) {
    uint32_t number;
    if (!scan_text(line, name) || !scan_absent_or(line, UINT16_MAX, present, &number)) return 0;
    *field = (uint16_t)number;
    return 1;
}

static int scan_version(Line *line, uint8_t *version) {
    return scan_field8(line, "v=", version) && (*version == 4 || *version == 6);
}

static int scan_ttl(Line *line, witness_observation *o) {
    uint8_t form;
    if (!scan_text(line, " ttl=")) return 0;
    for (form = 0; form < TTL_FORMS; form++)
        if (scan_text(line, ttl_forms[form])) break;
    o->ttl_form = form;
    return form < TTL_FORMS && scan_field8(line, "", &o->ttl) && (form != DISTANCE || scan_field8(line, ":", &o->hops));
}

/* Entries past the fortieth are counted, not held. */
static int scan_layout(Line *line, witness_observation *o) {
    uint8_t kind, byte;
    if (!scan_text(line, " layout=")) return 0;
    if (scan_text(line, "-")) return 1;
    do {
        if (!scan_field8(line, "", &kind) || !scan_field8(line, "/", &byte)) return 0;
        if (o->count < LAYOUT_MOST) o->kinds[o->count] = kind, o->bytes[o->count] = byte;
        o->count++;
    } while (scan_text(line, ","));
    return 1;
}

static int scan_payload(Line *line, uint8_t *payload) {
    if (!scan_text(line, " pclass=")) return 0;
    *payload = (uint8_t)scan_text(line, "+");
    return *payload || scan_text(line, "0");
}

/* The multiplier follows from the rest: it may be absent, and what it says up to a blank is not looked at. */
static void pass_over_multiplier(Line *line) {
    if (!scan_text(line, " win=")) return;
    while (line->at < line->end && *line->at > ' ' && *line->at < 127) line->at++;
}

int scan_observation(Line *line, witness_observation *o) {
    memset(o, 0, sizeof *o);
    if (!scan_version(line, &o->version) || !scan_ttl(line, o) || !scan_field8(line, " olen=", &o->olen) ||
        !scan_optional16(line, " mss=", &o->has_mss, &o->mss) || !scan_field16(line, " wsize=", &o->wsize) ||
        !scan_optional8(line, " wscale=", &o->has_wscale, &o->wscale) || !scan_layout(line, o) || !scan_text(line, " quirks=") ||
        !scan_quirks(line, &o->quirks) || !scan_payload(line, &o->pclass) ||
        !scan_optional16(line, " peer=", &o->has_peer_mss, &o->peer_mss) || !scan_field16(line, " tot_hdr=", &o->tot_hdr) ||
        !scan_field8(line, " tos=", &o->tos))
        return 0;
    pass_over_multiplier(line);
    return 1;
}

void write_absent_or(const char *name, int present, uint32_t number) {
    if (present) printf("%s%" PRIu32, name, number);
    else printf("%s-", name);
}

/* An entry past the fortieth, which is not held, is written as 0/0. */
void write_layout(uint64_t count, const uint8_t *kinds, const uint8_t *bytes) {
    uint64_t i;
    fputs("layout=", stdout);
    if (count == 0) putchar('-');
    for (i = 0; i < count; i++) {
        int held = i < LAYOUT_MOST;
        printf("%s%d/%d", i ? "," : "", held ? kinds[i] : 0, held ? bytes[i] : 0);
    }
}

static void write_multiplier(const witness_observation *o) {
    if (o->multiple_of == 0) fputs(" win=-", stdout);
    else printf(" win=%s:%u", o->multiple_of == 1 ? "mss" : "mtu", (unsigned)o->multiple);
}

void write_observation(const witness_observation *o) {
    printf("v=%u ttl=%s%u", (unsigned)o->version, o->ttl_form < TTL_FORMS ? ttl_forms[o->ttl_form] : "?", (unsigned)o->ttl);
    if (o->ttl_form == DISTANCE) printf(":%u", (unsigned)o->hops);
    printf(" olen=%u", (unsigned)o->olen);
    write_absent_or(" mss=", o->has_mss, o->mss);
    printf(" wsize=%u", (unsigned)o->wsize);
    write_absent_or(" wscale=", o->has_wscale, o->wscale);
    putchar(' ');
    write_layout(o->count, o->kinds, o->bytes);
    printf(" quirks=0x%08" PRIX32 " pclass=%c", o->quirks, o->pclass ? '+' : '0');
    write_absent_or(" peer=", o->has_peer_mss, o->peer_mss);
    printf(" tot_hdr=%u tos=%u", (unsigned)o->tot_hdr, (unsigned)o->tos);
    write_multiplier(o);
}
