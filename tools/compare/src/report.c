/* The tables of a run. */
#include "counts.h"

#include <stdio.h>

static const char *const answer_names[ANSWERS] = {
    "SYN", "SYN+ACK", "nothing", "refused 1", "refused 2", "refused 3", "refused 4", "refused 5", "refused 6", "refused 7",
    "parsed", "malformed", "refused 8", "specific exact", "generic exact", "fuzzy", "none", "refused 9", "refused 10", "refused 11",
    "pairs", "hops", "line", "refused 13", "TTL bytes", "written", "refused 23",
};

static const char *const class_names[LINE_CLASSES] = {
    "alike", "empty layout", "`?n`, a named kind", "`?n` over 255", "over 40 entries", "over 512 bytes", "not UTF-8", "otherwise",
};

static void hex(const char *name, const uint8_t *p, size_t size) {
    size_t i;
    printf("  %s (%zu bytes): ", name, size);
    for (i = 0; i < size; i++) printf("%02x", p[i]);
    printf("\n");
}

static void show_difference(int kind, int which, const Difference *d) {
    static const char *const names[KINDS] = {"packet (peer MSS before it)", "options", "search (observation, list)", "pair",
                                             "hops (two TTLs)", "line (the grammar's answer for the original's)", "TTL byte",
                                             "raw line (observation)", "record's line (number of the record before its list)",
                                             "packet in strict mode (peer MSS before it; what is expected for the original's)",
                                             "pair in strict mode", "walk (what is expected for the original's)",
                                             "pair, the walks of their options"};
    int i;
    printf("\ndifference in number %d of %s, %llu times\n", which, names[kind], (unsigned long long)d->times);
    hex("first", d->first, d->first_size);
    hex("smallest", d->least, d->least_size);
    for (i = 0; i < NUMBERS; i++)
        if (d->port.n[i] != d->original.n[i])
            printf("  number %d: port %llx, original %llx\n", i, (unsigned long long)d->port.n[i], (unsigned long long)d->original.n[i]);
}

static void show_line(const uint8_t *s, size_t size) {
    size_t i;
    for (i = 0; i < size && i < 100; i++) {
        if (s[i] < 32 || s[i] > 126 || s[i] == '\\') printf("\\x%02x", s[i]);
        else putchar(s[i]);
    }
    if (size > i) printf("..");
}

/* Lines by family: where the original answers as the port does, and the classes of the others, each with the smallest line. */
static void report_lines(void) {
    uint64_t sums[LINE_CLASSES] = {0}, all = 0;
    int i, j;
    printf("\n| Lines: the original's answer |");
    for (j = 0; j < LINE_CLASSES; j++) printf(" %s |", class_names[j]);
    printf("\n|---|");
    for (j = 0; j < LINE_CLASSES; j++) printf("---|");
    printf("\n");
    for (i = 0; i < counts.used; i++) {
        const Family *f = &counts.families[i];
        if (f->kind != LINE) continue;
        printf("| %s |", f->name);
        for (j = 0; j < LINE_CLASSES; j++) {
            printf(" %llu |", (unsigned long long)f->classes[j]);
            sums[j] += f->classes[j], all += f->classes[j];
        }
        printf("\n");
    }
    printf("| in all |");
    for (j = 0; j < LINE_CLASSES; j++) printf(" %llu |", (unsigned long long)sums[j]);
    printf("\n\nlines %llu; the smallest of each class:\n", (unsigned long long)all);
    for (j = 0; j < LINE_CLASSES; j++)
        if (counts.least_line_size[j]) {
            printf("  %s (%zu bytes): ", class_names[j], counts.least_line_size[j] - 1);
            show_line(counts.least_line[j], counts.least_line_size[j] - 1);
            printf("\n");
        }
}

/* Option strings by family: their damage, and the walks that were compared. */
static void report_damage(void) {
    int i, j;
    printf("\n| Option strings | Sound | One past the end | One of a short length | Both | Walks compared |\n|---|---|---|---|---|---|\n");
    for (i = 0; i < counts.used; i++) {
        const Family *f = &counts.families[i];
        if (!f->walks) continue;
        printf("| %s |", f->name);
        for (j = 0; j < 4; j++) printf(" %llu |", (unsigned long long)f->damage[j]);
        printf(" %llu |\n", (unsigned long long)f->walks);
    }
}

/* Lines that are written, by family: how the original writes the window, and the calls with their refusals by 15. */
static void report_written(void) {
    int i, j;
    printf("\n| Written lines | Window as the original's | There a multiple of the MSS | of the MTU | Bytes | Calls | Refused 15 |\n");
    printf("|---|---|---|---|---|---|---|\n");
    for (i = 0; i < counts.used; i++) {
        const Family *f = &counts.families[i];
        if (!f->calls) continue;
        printf("| %s |", f->name);
        for (j = 0; j < 3; j++) printf(" %llu |", (unsigned long long)f->multiples[j]);
        printf(" %zu to %zu | %llu | %llu |\n", f->shortest, f->longest, (unsigned long long)f->calls, (unsigned long long)f->refused_15);
    }
}

static void row(const char *name, const uint64_t *numbers, int n) {
    int i;
    printf("%s:", name);
    for (i = 0; i < n; i++) printf(" %llu", (unsigned long long)numbers[i]);
    printf("\n");
}

static void named_answers(const uint64_t *answers) {
    int i;
    for (i = 0; i < ANSWERS; i++)
        if (answers[i]) printf(" %s %llu;", answer_names[i], (unsigned long long)answers[i]);
}

static void report_family(const Family *f) {
    printf("| %s | %llu |", f->name, (unsigned long long)f->inputs);
    named_answers(f->answers);
    if (f->kind == PACKET || f->kind == PAIR) printf(" | %llu", (unsigned long long)f->refused_14);
    else printf(" | -");
    printf(" | %llu |\n", (unsigned long long)f->differences);
}

/* What was asked in the strict mode too, and the plain answers in whose place it refuses by 14. */
static void report_strict(void) {
    uint64_t asked[KINDS] = {0}, refused[KINDS] = {0};
    int i;
    for (i = 0; i < counts.used; i++) {
        asked[counts.families[i].kind] += counts.families[i].strict;
        refused[counts.families[i].kind] += counts.families[i].refused_14;
    }
    printf("strict: packets %llu, refused 14 %llu; pairs %llu, both refused 14 %llu\n", (unsigned long long)asked[PACKET],
           (unsigned long long)refused[PACKET], (unsigned long long)asked[PAIR], (unsigned long long)refused[PAIR]);
    printf("packets refused 14 by their plain answer:");
    named_answers(counts.replaced);
    printf("\npackets whose strict walk stops before a damaged option, by their plain answer:");
    named_answers(counts.damaged);
    printf("\n");
}

static void report_counts(void) {
    static const int places[17] = {0, 1, 2, 3, 4, 5, 12, 13, 14, 15, 16, 17, 24, 25, 26, 27, 28};
    uint64_t bits[17];
    int i;
    for (i = 0; i < 17; i++) bits[i] = counts.quirks[places[i]];
    row("quirks from the lowest bit up", bits, 17);
    row("TTL forms Value, Distance, Guess, Bad", counts.ttl_forms, 4);
    row("no multiplier, then by divisor 1 to 12", counts.divisors, 13);
    row("fuzzy with hops, added ecn, added id-, missing df, missing id+", counts.reasons, 5);
    row("fuzzy by a specific record, by a generic one", counts.fuzzy_kinds, 2);
    row("specific exact behind a generic exact one, behind a fuzzy one; generic exact behind a fuzzy one", counts.passed, 3);
    row("examined fewer records than the list has, all of them; of these ended by the last, of an empty list", counts.examined, 4);
}

uint64_t report(void) {
    uint64_t all[KINDS] = {0}, wrong = 0, sums[ANSWERS] = {0};
    int i, j;
    printf("| Family | Inputs | Answers | Refused 14 in strict mode | Differences |\n|---|---|---|---|---|\n");
    for (i = 0; i < counts.used; i++) {
        const Family *f = &counts.families[i];
        report_family(f);
        for (j = 0; j < ANSWERS; j++) sums[j] += f->answers[j];
        all[f->kind] += f->inputs;
        wrong += f->differences;
    }
    printf("\npackets %llu, option strings %llu, searches %llu, pairs %llu, hop distances %llu, lines %llu, TTL bytes %llu, "
           "raw lines %llu, records' lines %llu, differences %llu\n",
           (unsigned long long)all[PACKET], (unsigned long long)all[OPTIONS], (unsigned long long)all[SEARCH],
           (unsigned long long)all[PAIR], (unsigned long long)all[HOPS], (unsigned long long)all[LINE],
           (unsigned long long)all[TTL], (unsigned long long)all[RAW_LINE], (unsigned long long)all[RECORD_LINE],
           (unsigned long long)wrong);
    for (j = 0; j < ANSWERS; j++) printf("%s %llu%s", answer_names[j], (unsigned long long)sums[j], j + 1 < ANSWERS ? ", " : "\n");
    if (all[PACKET] || all[PAIR]) report_strict();
    report_counts();
    if (all[OPTIONS] || all[PAIR]) report_damage();
    if (all[LINE]) report_lines();
    if (all[RAW_LINE] || all[RECORD_LINE]) report_written();
    for (i = 0; i < KINDS; i++)
        for (j = 0; j < NUMBERS; j++)
            if (counts.differences[i][j]) show_difference(i, j, counts.differences[i][j]);
    return wrong;
}
