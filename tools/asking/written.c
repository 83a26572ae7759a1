/* A buffer that is lent for a line, and what was written into it. */
#include "asking.h"

#include <inttypes.h>
#include <stdio.h>
#include <stdlib.h>

enum { BAD_RECORD = 10 };

/* So many bytes more stand before the buffer and behind it. */
enum { GUARD = 64 };

/* What stands at a place before anything is written: no byte of a text, and another one a place further. */
static uint8_t pattern(size_t place) {
    return (uint8_t)(128 + place * 37 % 127);
}

uint8_t *lend(size_t room) {
    static uint8_t *bytes;
    size_t i;
    bytes = realloc(bytes, room + 2 * GUARD);
    if (!bytes) {
        fputs("tools/ask: no memory\n", stderr);
        exit(1);
    }
    for (i = 0; i < room + 2 * GUARD; i++) bytes[i] = pattern(i);
    return bytes + GUARD;
}

/* Whether a byte before the buffer, or one from a place on, is not what was lent. */
static int is_touched(const uint8_t *buffer, size_t room, size_t from) {
    const uint8_t *start = buffer - GUARD;
    size_t i;
    for (i = 0; i < GUARD; i++)
        if (start[i] != pattern(i)) return 1;
    for (i = GUARD + from; i < room + 2 * GUARD; i++)
        if (start[i] != pattern(i)) return 1;
    return 0;
}

int has_line(const uint8_t *buffer, size_t room, const witness_wrote *wrote) {
    if (wrote->length > room || (wrote->refusal && wrote->length) || is_touched(buffer, room, wrote->length)) {
        fputs("touched", stdout);
        return 0;
    }
    if (wrote->refusal) printf("refused %u", (unsigned)wrote->refusal);
    if (wrote->refusal == BAD_RECORD) printf(" %" PRIu32, wrote->bad_record);
    return !wrote->refusal;
}

void write_text(const uint8_t *bytes, size_t length) {
    size_t i;
    for (i = 0; i < length; i++)
        if (bytes[i] < 32 || bytes[i] > 126 || bytes[i] == '\\') printf("\\x%02x", (unsigned)bytes[i]);
        else putchar(bytes[i]);
}

void write_wrote(const uint8_t *buffer, size_t room, const witness_wrote *wrote) {
    if (!has_line(buffer, room, wrote)) return;
    printf("ok %" PRIu64 " ", wrote->length);
    write_text(buffer, wrote->length);
}
