/* The stored cases: chooses inputs that show something new, and prints each as a line of tools/ask, then the original's answer in the form
   of tools/ask, each behind the name of the file that it belongs in (tools/compare/sample). */
#include "asking.h"
#include "cover.h"
#include "families.h"
#include "make.h"
#include "original.h"
#include "storedlines.h"
#include "storedwritten.h"
#include "written.h"

#include <inttypes.h>
#include <stdio.h>
#include <string.h>

enum { INPUT = 256 };

static unsigned written[3];

static void write_bytes(const uint8_t *bytes, size_t size) {
    size_t i;
    if (size == 0) putchar('-');
    for (i = 0; i < size; i++) printf("%02x", (unsigned)bytes[i]);
}

static void write_packet_answer(const Numbers *answer, const uint8_t *o) {
    unsigned refusal = (unsigned)(answer->n[0] / 256);
    witness_observation w = observation_of(o);
    if (refusal) printf("refused %u", refusal);
    if (refusal == 7) printf(" 0x%02X", (unsigned)(answer->n[0] % 256));
    if (answer->n[0] == 3) fputs("nothing", stdout);
    if (answer->n[0] == 1) fputs("syn ", stdout);
    if (answer->n[0] == 2) fputs("synack ", stdout);
    if (answer->n[0] == 1 || answer->n[0] == 2) write_observation(&w);
    putchar('\n');
}

static void offer_packet(const uint8_t *p, size_t size, uint16_t peer) {
    Numbers answer;
    uint8_t o[OBSERVATION] = {0};
    if (size > INPUT) return;
    oracle_packet(p, size, peer, 0, &answer, o);
    if (!new_packet(p, size, &answer, o)) return;
    printf("observe.in %u ", (unsigned)peer);
    write_bytes(p, size);
    fputs("\nobserve.out ", stdout);
    write_packet_answer(&answer, o);
    written[0]++;
}

static void write_options_answer(const uint8_t *s, size_t size, const Numbers *answer) {
    uint8_t parsed[87];
    if (answer->n[0] != 1) {
        printf("refused %" PRIu64 "\n", answer->n[0]);
        return;
    }
    original_parse_options(s, size, parsed);
    write_layout(parsed[6], parsed + 7, parsed + 47);
    write_absent_or(" mss=", parsed[1], be16_at(parsed + 2));
    write_absent_or(" wscale=", parsed[4], parsed[5]);
    printf(" malformed=%u\n", (unsigned)parsed[0]);
}

static void offer_options(const uint8_t *s, size_t size) {
    Numbers answer;
    oracle_options(s, size, &answer);
    if (!new_options(s, size, &answer)) return;
    fputs("options.in ", stdout);
    write_bytes(s, size);
    fputs("\noptions.out ", stdout);
    write_options_answer(s, size, &answer);
    written[1]++;
}

static void write_search_answer(const Numbers *answer) {
    unsigned label = (unsigned)(answer->n[0] % 65536), number = (unsigned)answer->n[5];
    switch (answer->n[0] / 65536) {
    case 0:
        printf("refused %u", label);
        if (label == 10) printf(" %" PRIu64, answer->n[1]);
        putchar('\n');
        return;
    case 1: fputs("none", stdout); break;
    case 2: printf("exact %u at=%u", label, number); break;
    case 3:
        printf("fuzzy %u at=%u", label, number);
        write_absent_or(" hop=", answer->n[2] != 0, (uint32_t)answer->n[2] % 65536);
        printf(" added=0x%08" PRIX32 " missing=0x%08" PRIX32, (uint32_t)answer->n[3], (uint32_t)answer->n[4]);
        break;
    }
    printf(" count=%" PRIu64 "\n", answer->n[7]);
}

static void offer_search(const uint8_t *o, const uint8_t *list, size_t size, int place) {
    Numbers answer;
    witness_observation w = observation_of(o);
    int passed;
    if (size > INPUT - OBSERVATION) return;
    passed = oracle_search(o, list, size, &answer);
    if (!new_search(o, list, &answer, passed, place)) return;
    fputs("search.in ", stdout);
    write_observation(&w);
    fputs(" | ", stdout);
    write_bytes(list, size);
    fputs("\nsearch.out ", stdout);
    write_search_answer(&answer);
    written[2]++;
}

static void packets(void) {
    uint8_t p[PACKET_MOST];
    Random r = {21};
    size_t size;
    int i;
    for (i = 0; i < BASES; i++) {
        size = base_packet(i, p);
        offer_packet(p, size, 0);
        offer_packet(p, size, 1460);
    }
    for (i = 0; i < 2000000; i++) {
        size = make_packet(&r, p);
        if (chance(&r, 40)) size = damage_packet(&r, p, size);
        offer_packet(p, size, make_peer(&r));
    }
}

static void options(void) {
    uint8_t s[64] = {0};
    Random r = {22};
    int i;
    for (i = 0; i < STRINGS; i++) offer_options(s, base_string(i, s));
    memset(s, 0, sizeof s);
    for (i = 38; i < 44; i++) offer_options(s, (size_t)i);
    memset(s, 1, sizeof s);
    for (i = 38; i < 44; i++) offer_options(s, (size_t)i);
    for (i = 0; i < 300000; i++) {
        size_t size = make_options(&r, s);
        offer_options(s, size);
    }
}

static void searches(void) {
    uint8_t o[OBSERVATION], list[LIST_MOST];
    Random r = {23};
    size_t size;
    int i, place;
    for (i = 0; i < boundaries(); i++) {
        size = boundary(i, o, list);
        offer_search(o, list, size, -3 - i);
    }
    for (i = 0; i < 600000; i++) {
        if (i % 3 == 0) chance(&r, 60) ? observe(&r, o) : make_observation(&r, o);
        size = make_list(&r, o, i % 2 ? 1 : below(&r, 5), 2, list);
        place = -1;
        if (chance(&r, 25)) {
            place = (int)below(&r, (uint32_t)size);
            list[place] = byte_of(&r);
            place -= be16_at(list + 2) == 8 ? 0 : place;
        }
        if (chance(&r, 3)) size = below(&r, (uint32_t)size + 1), place = -2;
        offer_search(o, list, size, place);
    }
    for (i = 0; i < rows(3); i++) {
        size = row(i, o, list);
        if (i < rows(2) || row_fits(i)) offer_search(o, list, size, -3);
    }
}

int main(void) {
    unsigned lines = stored_lines(), written_lines = stored_written();
    packets();
    options();
    searches();
    fprintf(stderr, "lines %u, written ones %u, packets %u, options %u, searches %u\n", lines, written_lines, written[0], written[1],
            written[2]);
    cover_report();
    return fflush(stdout) != 0 || ferror(stdout);
}
