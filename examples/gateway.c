/* The terminal reader called from C: reads a bundle (document 01) on standard input and prints what the program `termread` prints. What
   reaches standard output is always a prefix of that; if it is cut, standard error says so and the status is 1.

   usage: gateway [-l] [-r] [-s] [-u] [-w] <BUNDLE
     -l   print last on each packet's line ` raw ` and what was seen of the packet, as p0f's raw line; - for nothing and refused
     -r   print behind each line the number of the record, whether it is generic, how many records were examined, the reason of a fuzzy
          answer, and what a refusal gives
     -s   ask in strict mode: TCP headers whose data offset contradicts them are refused (14), options are read up to a damaged one
     -u   have the list checked with each packet, instead of once
     -w   print each record of the list before the packets, as its signature line: `record N LINE`

   Built and run by tools/link_examples:
     gcc -std=c99 -O2 -I include -o gateway examples/gateway.c target/staticlib/libgateway.a */
#define _POSIX_C_SOURCE 200809L

#include "termread.h"

#include <errno.h>
#include <poll.h>
#include <stdarg.h>
#include <stdio.h>
#include <stdlib.h>
#include <string.h>
#include <unistd.h>

enum { BUNDLE_MOST = 65535, BUNDLE_HEADER = 8, BEFORE_PACKET = 4, PAGE = 4096, PIECE_MOST = 64 };

struct options {
    int raw_lines;
    int reasons;
    int strict;
    int unchecked;
    int records;
};

static size_t be16(const uint8_t *at) { return (size_t)at[0] * 256 + at[1]; }

/* ---- the streams */

/* Whether a call that failed may be tried again: it was interrupted, or it would have had to wait, which is done here. */
static int again(int descriptor, short event) {
    struct pollfd stream;
    if (errno == EINTR) return 1;
    if (errno != EAGAIN && errno != EWOULDBLOCK) return 0;
    stream.fd = descriptor;
    stream.events = event;
    return poll(&stream, 1, -1) > 0 || errno == EINTR;
}

/* How many bytes were read, at most as many as there is room for, or -1 if a read failed. */
static ssize_t read_input(uint8_t *bytes, size_t room) {
    size_t length = 0;
    while (length < room) {
        ssize_t got = read(STDIN_FILENO, bytes + length, room - length);
        if (got == 0) break;
        if (got > 0) length += (size_t)got;
        else if (!again(STDIN_FILENO, POLLIN)) return -1;
    }
    return (ssize_t)length;
}

/* Text that is still to be written, and whether a write has failed: from then on nothing is written. */
static struct {
    char text[PAGE];
    size_t filled;
    int cut;
} output;

static void flush(void) {
    size_t from = 0;
    while (!output.cut && from < output.filled) {
        ssize_t taken = write(STDOUT_FILENO, output.text + from, output.filled - from);
        if (taken > 0) from += (size_t)taken;
        else if (taken == 0 || !again(STDOUT_FILENO, POLLOUT)) output.cut = 1;
    }
    output.filled = 0;
}

/* Prints a piece of under PIECE_MOST bytes. */
static void print(const char *format, ...) {
    va_list values;
    if (PAGE - output.filled < PIECE_MOST) flush();
    va_start(values, format);
    output.filled += (size_t)vsnprintf(output.text + output.filled, PAGE - output.filled, format, values);
    va_end(values);
}

/* Prints bytes that a page has room for. */
static void print_bytes(const uint8_t *bytes, size_t length) {
    if (PAGE - output.filled < length) flush();
    memcpy(output.text + output.filled, bytes, length);
    output.filled += length;
}

/* ---- an answer as text */

static void print_quirks(const char *word, uint32_t quirks) {
    static const struct {
        uint32_t bit;
        const char *name;
    } names[] = {
        {TERMREAD_QUIRK_ECN, "ecn"},
        {TERMREAD_QUIRK_DF, "df"},
        {TERMREAD_QUIRK_ID_NONZERO, "id+"},
        {TERMREAD_QUIRK_ID_ZERO, "id-"},
    };
    size_t i;
    for (i = 0; i < sizeof names / sizeof names[0]; i++)
        if (quirks & names[i].bit) print(" %s %s", word, names[i].name);
}

static void print_refused(termread_result answer, int reasons) {
    print("refused %u", answer.refusal);
    if (reasons && answer.refusal == TERMREAD_REFUSED_FLAGS) print(" flags %u", answer.value);
    if (reasons && answer.refusal == TERMREAD_REFUSED_RECORD) print(" record %u", answer.value);
}

static void print_record(termread_result answer) {
    print(" record %u%s", answer.number, answer.marks & TERMREAD_GENERIC ? " generic" : "");
}

static void print_examined(termread_result answer) {
    print(" examined %u", answer.examined);
}

static void print_reason(termread_result answer) {
    if (answer.marks & TERMREAD_OUT_OF_RANGE) print(" hops %u", answer.hops);
    print_quirks("added", answer.added);
    print_quirks("missing", answer.missing);
}

/* Each outcome is asked for by its name: a fuzzy answer can not pass for an exact one. */
static void print_answer(termread_result answer, int reasons) {
    const char *kind = answer.kind == TERMREAD_SYN ? "syn" : "synack";
    switch (answer.outcome) {
    case TERMREAD_EXACT:
        print("%s exact %u", kind, answer.label);
        if (reasons) print_record(answer), print_examined(answer);
        break;
    case TERMREAD_FUZZY:
        print("%s fuzzy %u", kind, answer.label);
        if (reasons) print_record(answer), print_examined(answer), print_reason(answer);
        break;
    case TERMREAD_NONE:
        print("%s none", kind);
        if (reasons) print_examined(answer);
        break;
    case TERMREAD_NOTHING: print("nothing"); break;
    case TERMREAD_REFUSED: print_refused(answer, reasons); break;
    default: fprintf(stderr, "gateway: unknown outcome %u\n", answer.outcome), exit(1);
    }
}

/* ---- lines: the buffers are for the longest ones */

static void print_raw_line(const uint8_t *packet, size_t size, uint16_t peer, struct options options) {
    uint8_t line[TERMREAD_RAW_LINE_MOST];
    termread_result answer;
    if (options.strict) answer = termread_raw_line_in(line, sizeof line, packet, size, peer, TERMREAD_STRICT);
    else answer = termread_raw_line(line, sizeof line, packet, size, peer);
    print(" raw ");
    if (answer.outcome == TERMREAD_LINE) print_bytes(line, answer.value);
    else print("-");
}

/* Up to the first index that the list does not have. */
static void print_records(const uint8_t *list, size_t length) {
    uint8_t line[TERMREAD_RECORD_LINE_MOST];
    size_t index;
    for (index = 0;; index++) {
        termread_result answer = termread_record_line(line, sizeof line, list, length, index);
        if (answer.outcome != TERMREAD_LINE) return;
        print("record %zu ", index);
        print_bytes(line, answer.value);
        print("\n");
    }
}

/* ---- a bundle */

/* The end of the packet that starts at a place, or 0 if it does not fit. */
static size_t packet_end(const uint8_t *bundle, size_t length, size_t at) {
    size_t end;
    if (at > length || length - at < BEFORE_PACKET) return 0;
    end = at + BEFORE_PACKET + be16(bundle + at + 2);
    return end <= length ? end : 0;
}

static int bundle_fits(const uint8_t *bundle, size_t length) {
    size_t at, left;
    if (length > BUNDLE_MOST || length < BUNDLE_HEADER) return 0;
    if (be16(bundle + 6) + be16(bundle + 4) > length) return 0;
    at = be16(bundle + 2);
    for (left = be16(bundle); left > 0; left--) {
        at = packet_end(bundle, length, at);
        if (at == 0) return 0;
    }
    return at <= length;
}

/* The answer of a packet, from the function that the options ask for. */
static termread_result answer_of(const uint8_t *packet, size_t size, uint16_t peer, const uint8_t *list, size_t length,
                                 struct options options) {
    if (options.strict && options.unchecked) return termread_answer_in(packet, size, peer, list, length, TERMREAD_STRICT);
    if (options.strict) return termread_answer_checked_in(packet, size, peer, list, length, TERMREAD_STRICT);
    if (options.unchecked) return termread_answer(packet, size, peer, list, length);
    return termread_answer_checked(packet, size, peer, list, length);
}

static void print_packets(const uint8_t *bundle, size_t length, struct options options) {
    const uint8_t *list = bundle + be16(bundle + 6);
    size_t list_length = be16(bundle + 4), at = be16(bundle + 2), left;
    print("packets %zu\n", be16(bundle));
    for (left = be16(bundle); left > 0; left--) {
        const uint8_t *packet = bundle + at + BEFORE_PACKET;
        uint16_t peer = (uint16_t)be16(bundle + at);
        size_t size = be16(bundle + at + 2);
        print_answer(answer_of(packet, size, peer, list, list_length, options), options.reasons);
        if (options.raw_lines) print_raw_line(packet, size, peer, options);
        print("\n");
        at = packet_end(bundle, length, at);
    }
}

/* With -u the list is refused by the answer of an empty packet, whose own refusal comes after the list's. */
static termread_result checked_list(const uint8_t *list, size_t length, struct options options) {
    static const termread_result good;
    termread_result answer;
    if (!options.unchecked) return termread_check_list(list, length);
    answer = answer_of(list, 0, 0, list, length, options);
    return answer.refusal == TERMREAD_REFUSED_VERSION ? good : answer;
}

static void print_bundle(const uint8_t *bundle, size_t length, struct options options) {
    termread_result list;
    if (!bundle_fits(bundle, length)) {
        print("refused %d\n", TERMREAD_REFUSED_BUNDLE);
        return;
    }
    list = checked_list(bundle + be16(bundle + 6), be16(bundle + 4), options);
    if (list.outcome != TERMREAD_GOOD) {
        print_answer(list, options.reasons);
        print("\n");
        return;
    }
    if (options.records) print_records(bundle + be16(bundle + 6), be16(bundle + 4));
    print_packets(bundle, length, options);
}

int main(int count, char **words) {
    static uint8_t bundle[BUNDLE_MOST + 1];
    struct options options = {0, 0, 0, 0, 0};
    ssize_t length;
    int i;
    for (i = 1; i < count; i++) {
        if (strcmp(words[i], "-l") == 0) options.raw_lines = 1;
        else if (strcmp(words[i], "-r") == 0) options.reasons = 1;
        else if (strcmp(words[i], "-s") == 0) options.strict = 1;
        else if (strcmp(words[i], "-u") == 0) options.unchecked = 1;
        else if (strcmp(words[i], "-w") == 0) options.records = 1;
        else return fprintf(stderr, "usage: gateway [-l] [-r] [-s] [-u] [-w] <BUNDLE\n"), 2;
    }
    length = read_input(bundle, sizeof bundle);
    if (length < 0) return fprintf(stderr, "gateway: standard input could not be read\n"), 1;
    print_bundle(bundle, (size_t)length, options);
    flush();
    if (output.cut) return fprintf(stderr, "gateway: standard output could not be written, and ends early\n"), 1;
    return 0;
}
