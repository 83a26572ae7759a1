/* The port's answers for cases of standard input, a row of numbers each: port LISTS <cases.
   LISTS: signature lists, each after its length (4). A case: number of its list (2), the peer's MSS (2), size (2), the packet.
   A row: of the reading its answer, version, TTL (form, value, hops), option length, tos, quirks, MSS, window, scale, payload, multiplier;
   of the search outcome and label; the hop distance that is reported for the record found; the layout's entries, kind and byte each; the
   raw line, or `-` if there is none.
   A value that may be absent, and the multiplier, is its presence times 65536 and the value (tools/witness/witness.h). */
#include "../../witness/witness.h"

#include <stdio.h>
#include <stdlib.h>
#include <string.h>

enum { RECORD = 24, MOST_LISTS = 1000, MOST_BYTES = 1 << 20 };

static uint8_t bytes[MOST_BYTES];
static struct {
    const uint8_t *at;
    size_t size;
} lists[MOST_LISTS];

static unsigned be16(const uint8_t *p) { return p[0] * 256u + p[1]; }

static void fail(const char *why) {
    fprintf(stderr, "port: %s\n", why);
    exit(2);
}

static size_t read_lists(const char *path) {
    size_t size, at = 0, count = 0;
    FILE *file = fopen(path, "rb");
    if (!file) fail("no lists");
    size = fread(bytes, 1, sizeof bytes, file);
    fclose(file);
    while (at + 4 <= size && count < MOST_LISTS) {
        size_t length = (size_t)be16(bytes + at) * 65536 + be16(bytes + at + 2);
        lists[count].at = bytes + at + 4;
        lists[count++].size = length;
        at += 4 + length;
    }
    if (at != size) fail("lists do not end at the end of their file");
    return count;
}

/* The hop distance for the record of that number. */
static unsigned hops(const witness_observation *o, const uint8_t *list, unsigned number) {
    const uint8_t *record = list + be16(list + 2) + RECORD * number;
    uint8_t ttls[6] = {o->ttl_form, o->ttl, o->hops, record[1], record[2], record[3]};
    return witness_hops(ttls, sizeof ttls);
}

static unsigned present(uint8_t has, unsigned value) { return has * 65536u + value; }

/* The raw line of an observation, with a zero behind it. */
static const char *raw_line(witness_observation o) {
    static char text[512];
    witness_wrote wrote = witness_raw((uint8_t *)text, sizeof text - 1, o);
    if (wrote.refusal) fail("a raw line is refused");
    text[wrote.length] = 0;
    return text;
}

static void answer(const uint8_t *packet, size_t size, unsigned list, uint16_t peer) {
    witness_packet_read read = witness_packet(packet, size, peer, WITNESS_PLAIN);
    const witness_observation *o = &read.observation;
    witness_search_read found = {0};
    uint64_t i;
    if (read.answer <= 2) found = witness_search(*o, lists[list].at, lists[list].size);
    printf("%u %u %u %u %u %u %u ", read.answer, o->version, o->ttl_form, o->ttl, o->hops, o->olen, o->tos);
    printf("%u %u %u %u %u ", o->quirks, present(o->has_mss, o->mss), o->wsize, present(o->has_wscale, o->wscale), o->pclass);
    printf("%u %u %u ", present(o->multiple_of, o->multiple), found.outcome, found.label);
    printf("%u", found.outcome == 1 || found.outcome == 2 ? hops(o, lists[list].at, found.number) : 0);
    for (i = 0; i < o->count; i++) printf(" %u %u", o->kinds[i], o->bytes[i]);
    printf(" %s\n", read.answer <= 2 ? raw_line(*o) : "-");
}

int main(int argc, char **argv) {
    static uint8_t packet[65536];
    uint8_t head[6];
    size_t count;
    if (argc != 2) fail("usage: port LISTS <cases");
    count = read_lists(argv[1]);
    while (fread(head, 1, 6, stdin) == 6) {
        size_t size = be16(head + 4);
        if (be16(head) >= count || fread(packet, 1, size, stdin) != size) fail("a case is short or names no list");
        answer(packet, size, be16(head), (uint16_t)be16(head + 2));
    }
    return 0;
}
