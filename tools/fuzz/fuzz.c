/* usage: fuzz TIMES SEED FOLDER PROGRAM [WORDS..]: so many bundles, each from its own number and the seed. An input with another answer
   than the expected is left in FOLDER. Ends with 0 if there is none. */
#include "fuzz.h"

#include <inttypes.h>
#include <signal.h>
#include <stdio.h>
#include <stdlib.h>
#include <string.h>

static Input input;
static Text expected, got;

static void keep(const char *folder, uint64_t number, const char *why) {
    char path[4096];
    FILE *file;
    snprintf(path, sizeof path, "%s/%" PRIu64 ".bundle", folder, number);
    file = fopen(path, "wb");
    if (file) fwrite(input.bytes, 1, input.size, file), fclose(file);
    printf("DIFFERENCE at bundle %" PRIu64 " (%s): %s\nexpected: %.*s\ngot: %.*s\n", number, path, why,
           (int)(expected.size < 300 ? expected.size : 300), expected.bytes, (int)(got.size < 300 ? got.size : 300), got.bytes);
}

static const char *try_one(uint64_t seed, char **words, Tally *tally) {
    Random r = {seed};
    const char *fault;
    tally->bundles++;
    tally->mutated += (uint64_t)make_input(&r, &input);
    expected_text(&input, &expected, tally);
    fault = run_program(words, &r, &input, &got);
    if (fault) return fault;
    return expected.size == got.size && memcmp(expected.bytes, got.bytes, got.size) == 0 ? 0 : "another output";
}

static void show(const Tally *t, uint64_t differences) {
    unsigned i;
    printf("bundles %" PRIu64 ", mutated %" PRIu64 ", over 65,535 bytes %" PRIu64 ", output of several pages %" PRIu64 "\n", t->bundles,
           t->mutated, t->over, t->pages);
    printf("well formed %" PRIu64 ", refused 9 %" PRIu64 ", refused 10 %" PRIu64 ", refused 12 %" PRIu64 "\n", t->good, t->refused[0],
           t->refused[1], t->refused[2]);
    printf("lines:");
    for (i = 0; i < LINES; i++) printf("%s %s %" PRIu64, i ? "," : "", line_names[i], t->lines[i]);
    printf("\nby a generic record: exact %" PRIu64 ", fuzzy %" PRIu64, t->generic[0], t->generic[1]);
    printf("\ndifferences, crashes and runs that did not end: %" PRIu64 "\n", differences);
}

int main(int count, char **words) {
    static Tally tally;
    uint64_t i, times, seed, differences = 0;
    if (count < 5) return fprintf(stderr, "usage: fuzz TIMES SEED FOLDER PROGRAM [WORDS..]\n"), 2;
    times = strtoull(words[1], 0, 10), seed = strtoull(words[2], 0, 10);
    signal(SIGPIPE, SIG_IGN);
    for (i = 0; i < times && differences < 10; i++) {
        const char *fault = try_one((seed << 40) + i, words + 4, &tally);
        if (fault) keep(words[3], i, fault), differences++;
    }
    show(&tally, differences);
    return differences != 0;
}
