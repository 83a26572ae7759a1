/* The program behind tools/ask: ask COMMAND MODE <LINES, an answer for each line. Words are checked by tools/ask. */
#define _POSIX_C_SOURCE 200809L

#include "asking.h"

#include <stdio.h>
#include <stdlib.h>
#include <string.h>

static const struct {
    const char *name;
    int (*answer)(Line *line);
} commands[] = {
#define COMMAND(name, modes) {#name, answer_##name},
#include "commands.h"
#undef COMMAND
};

/* What the word of a mode asks of the library. Which words a command takes is its row's, and checked before. */
static const struct {
    const char *word;
    uint8_t bits;
} modes[] = {
    {"plain", WITNESS_PLAIN},
    {"strict", WITNESS_STRICT},
};

/* The bits of a mode, or -1 for a word that is none. */
static int mode_of(const char *word) {
    size_t i;
    for (i = 0; i < sizeof modes / sizeof *modes; i++)
        if (strcmp(word, modes[i].word) == 0) return modes[i].bits;
    return -1;
}

static int fail(const char *what) {
    fprintf(stderr, "tools/ask: %s\n", what);
    return 1;
}

static int answer_lines(int (*answer)(Line *line), uint8_t mode) {
    char *text = NULL;
    size_t room = 0;
    ssize_t length;
    while ((length = getline(&text, &room, stdin)) > 0) {
        Line line;
        line.at = text;
        line.end = text + length - (text[length - 1] == '\n');
        line.mode = mode;
        if (!answer(&line)) fputs("bad line", stdout);
        putchar('\n');
    }
    free(text);
    if (!feof(stdin)) return fail("standard input could not be read");
    if (fflush(stdout) != 0 || ferror(stdout)) return fail("standard output could not be written");
    return 0;
}

int main(int argc, char **argv) {
    size_t i;
    int mode;
    if (argc != 3 || (mode = mode_of(argv[2])) < 0) return 2;
    setvbuf(stdout, NULL, _IOFBF, 65536);
    for (i = 0; i < sizeof commands / sizeof *commands; i++)
        if (strcmp(argv[1], commands[i].name) == 0) return answer_lines(commands[i].answer, (uint8_t)mode);
    return 2;
}
