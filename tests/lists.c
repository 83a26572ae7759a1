/* What compiling a keeper's file does to the buffer that it is lent, at every size of it that matters: lists <FILE

   With room the list is written, and only the list; with a byte less the answer is refusal 15, and no byte is written; any other refusal is
   the same at every size, and no byte is written. The bytes before and behind the buffer stay as they were. termread_check_list finds the
   list well formed.

   Built by tools/link_examples, run by tests/lists: the list in hexadecimal digits, or `refused`, number, line and offset; the last line
   counts what was wrong. */
#include "termread.h"

#include <inttypes.h>
#include <stdio.h>
#include <stdlib.h>
#include <string.h>

enum { FILE_MOST = 4 * 1024 * 1024, LONG = 500000, BEFORE = 64, ROOM_MOST = TERMREAD_LIST_MOST + 8, AREA = BEFORE + ROOM_MOST + BEFORE };

static uint8_t file[FILE_MOST], list[ROOM_MOST], area[AREA];
static size_t file_length;
static unsigned long faults;

static void fault(size_t room, const char *what) {
    printf("a buffer of %zu bytes: %s\n", room, what);
    faults++;
}

static int same(termread_compiled a, termread_compiled b) { return memcmp(&a, &b, sizeof a) == 0; }

/* What stands at a place before anything is written: another byte a place further, and no byte the same of both patterns. */
static uint8_t pattern(size_t place, int other) {
    return (uint8_t)((place * 37 % 127) ^ (other ? 0xFF : 0));
}

/* The answer at a size, which is `wanted`; what is written are the first bytes of the list, as many as it says. */
static void at_size(size_t room, int other, termread_compiled wanted) {
    size_t end = BEFORE + room + BEFORE, i;
    for (i = 0; i < end; i++) area[i] = pattern(i, other);
    if (!same(termread_compile_list(area + BEFORE, room, file, file_length), wanted)) fault(room, "another answer");
    if (memcmp(area + BEFORE, list, wanted.length) != 0) fault(room, "another list");
    for (i = 0; i < end; i++)
        if ((i < BEFORE || i - BEFORE >= wanted.length) && area[i] != pattern(i, other)) break;
    if (i < end) fault(room, "other bytes in the buffer or beside it");
}

/* No refusal has a list, 15 no line, and none but 13 an offset. */
static int is_told(termread_compiled answer) {
    switch (answer.refusal) {
    case 0: return answer.length >= 8 && answer.line == 0 && answer.offset == 0;
    case TERMREAD_REFUSED_LINE: return answer.length == 0 && answer.line > 0;
    case TERMREAD_REFUSED_SIGNATURES:
    case TERMREAD_REFUSED_ENTRIES: return answer.length == 0 && answer.line > 0 && answer.offset == 0;
    default: return 0;
    }
}

/* The rooms around the list's length, the smallest, what is always enough, and the most; of a long file those around the length. */
static void try(termread_compiled first) {
    static const termread_compiled no_room = {0, 0, 0, TERMREAD_REFUSED_BUFFER};
    size_t enough = 8 + 2 * file_length < TERMREAD_LIST_MOST ? 8 + 2 * file_length : TERMREAD_LIST_MOST;
    size_t rooms[] = {0, 1, 7, 8, 9, 0, 0, 0, 0, TERMREAD_LIST_MOST, ROOM_MOST}, i;
    rooms[5] = first.length > 0 ? first.length - 1 : 0;
    rooms[6] = first.length;
    rooms[7] = first.length + 1;
    rooms[8] = enough;
    if (enough < first.length) fault(enough, "a list that is longer than is said to be enough");
    for (i = 0; i < sizeof rooms / sizeof *rooms; i++) {
        if (file_length >= LONG && (i < 5 || i > 7)) continue;
        at_size(rooms[i], 0, rooms[i] < first.length ? no_room : first);
        at_size(rooms[i], 1, rooms[i] < first.length ? no_room : first);
    }
}

int main(void) {
    termread_compiled first;
    size_t i;
    file_length = fread(file, 1, sizeof file, stdin);
    if (ferror(stdin) || file_length == sizeof file) return fprintf(stderr, "lists: no file\n"), 2;
    first = termread_compile_list(list, sizeof list, file, file_length);
    if (!is_told(first) || first.length > TERMREAD_LIST_MOST) return printf("an answer that is none\nfaults 1\n"), 0;
    try(first);
    if (!first.refusal && termread_check_list(list, first.length).outcome != TERMREAD_GOOD) fault(sizeof list, "not well formed");
    if (first.refusal) printf("refused %" PRIu32 " %" PRIu32 " %" PRIu32 "\n", first.refusal, first.line, first.offset);
    for (i = 0; i < first.length; i++) printf("%02x", (unsigned)list[i]);
    if (!first.refusal) putchar('\n');
    printf("faults %lu\n", faults);
    return 0;
}
