/* The comparison: driver [SHARE [FAMILIES]], where SHARE divides the counts of random inputs, and FAMILIES is one of the names below. */
#include "families.h"
#include "tally.h"

#include <stdio.h>
#include <stdlib.h>
#include <string.h>

static void written_families(unsigned share) {
    raw_line_families(share);
    record_line_families(share);
}

static const struct {
    const char *name;
    void (*run)(unsigned share);
} families[] = {
    {"packets", packet_families}, {"options", option_families}, {"searches", search_families}, {"pairs", pair_families},
    {"lines", line_families},     {"written", written_families},
};

int main(int argc, char **argv) {
    unsigned share = argc > 1 ? (unsigned)atoi(argv[1]) : 1;
    size_t i, run = 0;
    if (share == 0) share = 1;
    for (i = 0; i < sizeof families / sizeof *families; i++)
        if (argc < 3 || strcmp(argv[2], families[i].name) == 0) families[i].run(share), run++;
    if (!run) {
        fprintf(stderr, "driver: no families %s\n", argv[2]);
        return 2;
    }
    return report() != 0;
}
