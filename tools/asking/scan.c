/* Text, numbers and bytes of a line. */
#include "asking.h"

#include <stdio.h>
#include <stdlib.h>
#include <string.h>

int scan_text(Line *line, const char *text) {
    size_t length = strlen(text);
    if ((size_t)(line->end - line->at) < length || memcmp(line->at, text, length) != 0) return 0;
    line->at += length;
    return 1;
}

/* Decimal digits, one at least. */
int scan_long_number(Line *line, uint64_t most, uint64_t *number) {
    const char *start = line->at;
    uint64_t digit;
    for (*number = 0; line->at < line->end && *line->at >= '0' && *line->at <= '9'; line->at++) {
        digit = (uint64_t)(*line->at - '0');
        if (digit > most || *number > (most - digit) / 10) return 0;
        *number = 10 * *number + digit;
    }
    return line->at > start;
}

int scan_number(Line *line, uint32_t most, uint32_t *number) {
    uint64_t value;
    int scanned = scan_long_number(line, most, &value);
    *number = (uint32_t)value;
    return scanned;
}

int scan_absent_or(Line *line, uint32_t most, uint8_t *present, uint32_t *number) {
    *number = 0;
    *present = (uint8_t)!scan_text(line, "-");
    return !*present || scan_number(line, most, number);
}

/* The value of a hexadecimal digit, or -1. */
static int digit(char c) {
    if (c >= '0' && c <= '9') return c - '0';
    if (c >= 'a' && c <= 'f') return c - 'a' + 10;
    if (c >= 'A' && c <= 'F') return c - 'A' + 10;
    return -1;
}

static int scan_byte(Line *line, uint8_t *byte) {
    int high, low;
    if (line->end - line->at < 2) return 0;
    high = digit(line->at[0]), low = digit(line->at[1]);
    if (high < 0 || low < 0) return 0;
    *byte = (uint8_t)(16 * high + low);
    line->at += 2;
    return 1;
}

int scan_quirks(Line *line, uint32_t *quirks) {
    uint8_t byte;
    int i;
    if (!scan_text(line, "0x")) return 0;
    for (*quirks = 0, i = 0; i < 4; i++) {
        if (!scan_byte(line, &byte)) return 0;
        *quirks = *quirks * 256 + byte;
    }
    return 1;
}

/* Room for so many bytes, in which the first ones stay as they were; never of size 0. */
static uint8_t *room_for(size_t length) {
    static uint8_t *bytes;
    static size_t room;
    if (!bytes || room < length) {
        room = length < 65536 ? 65536 : length;
        bytes = realloc(bytes, room);
    }
    if (!bytes) {
        fputs("tools/ask: no memory\n", stderr);
        exit(1);
    }
    return bytes;
}

/* Hexadecimal digits, or '-' for none, then perhaps a run: '~', a byte, '*', how many. */
int scan_bytes(Line *line, Bytes *bytes) {
    uint8_t *room = room_for((size_t)(line->end - line->at) / 2), byte;
    size_t length = 0;
    uint32_t more = 0;
    if (!scan_text(line, "-"))
        for (; length < BYTES_MOST && scan_byte(line, &byte); length++) room[length] = byte;
    if (scan_text(line, "~")) {
        if (!scan_byte(line, &byte) || !scan_text(line, "*") || !scan_number(line, (uint32_t)(BYTES_MOST - length), &more)) return 0;
        room = room_for(length + more);
        memset(room + length, byte, more);
    }
    bytes->at = room;
    bytes->length = length + more;
    return 1;
}

/* A space and bytes up to the end of the line; where the line ends already, there are none. */
int scan_last_bytes(Line *line, Bytes *bytes) {
    if (line->at < line->end && !scan_text(line, " ")) return 0;
    return scan_bytes(line, bytes) && line->at == line->end;
}

/* Text up to the end of the line: the bytes 32 to 126 as they are but for '\', any byte as \xNN. */
int scan_escaped(Line *line, Bytes *bytes) {
    uint8_t *room = room_for((size_t)(line->end - line->at));
    size_t length = 0;
    for (; line->at < line->end; length++) {
        if (scan_text(line, "\\x")) {
            if (!scan_byte(line, room + length)) return 0;
        } else {
            if (*line->at < 32 || *line->at > 126 || *line->at == '\\') return 0;
            room[length] = (uint8_t)*line->at++;
        }
    }
    bytes->at = room;
    bytes->length = length;
    return 1;
}
