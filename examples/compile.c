/* A keeper's file compiled from C: the file (docs/FORMATS.md) on standard input, its signature list on standard output. A file that is
   refused is told on standard error by its line and column, both from 1, nothing is written, and the status is 1; so it is if a stream
   fails.

   usage: compile <FILE >LIST

   Built and run by tools/link_examples:
     gcc -std=c99 -O2 -I include -o compile examples/compile.c target/staticlib/libgateway.a */
#include "termread.h"

#include <inttypes.h>
#include <stdio.h>
#include <stdlib.h>

enum { FIRST_ROOM = 65536 };

static int failed(const char *what) {
    fprintf(stderr, "compile: %s\n", what);
    return 1;
}

/* The whole input, which has `*length` bytes; NULL if it could not be read or kept. The room doubles, and is never of size 0. */
static uint8_t *read_input(size_t *length) {
    size_t room = FIRST_ROOM;
    uint8_t *bytes = malloc(room);
    *length = 0;
    while (bytes) {
        uint8_t *more;
        *length += fread(bytes + *length, 1, room - *length, stdin);
        if (*length < room) break;
        more = room <= SIZE_MAX / 2 ? realloc(bytes, 2 * room) : NULL;
        if (!more) free(bytes);
        bytes = more;
        room *= 2;
    }
    if (!bytes || !ferror(stdin)) return bytes;
    free(bytes);
    return NULL;
}

/* A column is an offset in its line, counted from 1. 15 does not come: the buffer has room for any list of the file. */
static int refused(termread_compiled compiled) {
    switch (compiled.refusal) {
    case TERMREAD_REFUSED_LINE:
        fprintf(stderr, "line %" PRIu32 ", column %" PRIu64 ": no signature goes on here\n", compiled.line, (uint64_t)compiled.offset + 1);
        return 1;
    case TERMREAD_REFUSED_SIGNATURES:
        fprintf(stderr, "line %" PRIu32 ": more than 65535 signatures\n", compiled.line);
        return 1;
    case TERMREAD_REFUSED_ENTRIES:
        fprintf(stderr, "line %" PRIu32 ": more than 32763 options in the layouts up to here\n", compiled.line);
        return 1;
    default: return failed("the library gave an unknown refusal");
    }
}

static int write_output(const uint8_t *bytes, size_t length) {
    if (fwrite(bytes, 1, length, stdout) == length && fflush(stdout) == 0) return 0;
    return failed("standard output could not be written, and ends early");
}

/* No list has more than TERMREAD_LIST_MOST bytes, and none more than 8 and twice its file's. */
static size_t list_room(size_t file_length) {
    return file_length < TERMREAD_LIST_MOST / 2 - 4 ? 8 + 2 * file_length : TERMREAD_LIST_MOST;
}

int main(void) {
    size_t length, room;
    uint8_t *file = read_input(&length), *list;
    termread_compiled compiled;
    int status;
    if (!file) return failed("standard input could not be read");
    room = list_room(length);
    list = malloc(room);
    if (!list) return free(file), failed("no memory");
    compiled = termread_compile_list(list, room, file, length);
    status = compiled.refusal ? refused(compiled) : write_output(list, compiled.length);
    free(list);
    free(file);
    return status;
}
