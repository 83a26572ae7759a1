/* Mutated bundles through the program `termread`, against the original. The random numbers, packets, lists and the original's answers
   are those of tools/compare. */
#ifndef FUZZ_H
#define FUZZ_H

#include "../compare/src/make.h"

enum { BUNDLE_MOST = 65535, INPUT_MOST = 80000, TEXT_MOST = 400000 };

typedef struct {
    uint8_t bytes[INPUT_MOST];
    size_t size;
} Input;

typedef struct {
    char bytes[TEXT_MOST];
    size_t size;
} Text;

/* What was seen, by the text of a line without its number, but for refusals. */
enum { LINES = 14 };
typedef struct {
    uint64_t bundles, mutated, over, pages, refused[3], good, lines[LINES];
    uint64_t generic[2]; /* lines of exact, of fuzzy by a generic record */
} Tally;
extern const char *const line_names[LINES];

/* bundles.c: a bundle; gives whether it was mutated. */
int make_input(Random *r, Input *input);

/* expected.c: what the documents ask for, with the original's answers. */
void expected_text(const Input *input, Text *text, Tally *tally);

/* child.c: runs a program on an input that arrives in pieces of random size. Gives 0, or what went wrong. */
const char *run_program(char **words, Random *r, const Input *input, Text *text);

#endif
