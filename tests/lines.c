/* What the functions that write a line do to the buffer that they are lent, at every size of it that matters: lines <BUNDLE

   For each packet of the bundle, plain and strict, and each record of its list: with room the line is written, and only the line; with a
   byte less the answer is refusal 15, and no byte is written; any other answer is the same at every size, and no byte is written. The bytes
   before and behind the buffer stay as they were. Whether a packet has a line, and of which kind, is as a search answers it.

   Built by tools/link_examples, run by tests/examples on every bundle that fits; the last line counts what was asked and what was wrong. */
#include "termread.h"

#include <stdio.h>
#include <string.h>

enum { BUNDLE_MOST = 65535, BEFORE = 16, ROOM_MOST = 600, AREA = BEFORE + ROOM_MOST + BEFORE };

static unsigned long packets, records, lines, faults;

static size_t be16(const uint8_t *at) { return (size_t)at[0] * 256 + at[1]; }

/* What is asked for: a packet's line in a mode, or a record's. */
struct question {
    const uint8_t *bytes;
    size_t length;
    uint16_t peer;
    int mode; /* -1: the function without a mode */
    int of_record;
    size_t index;
};

static termread_result ask(const struct question *q, uint8_t *buffer, size_t room) {
    if (q->of_record) return termread_record_line(buffer, room, q->bytes, q->length, q->index);
    if (q->mode < 0) return termread_raw_line(buffer, room, q->bytes, q->length, q->peer);
    return termread_raw_line_in(buffer, room, q->bytes, q->length, q->peer, (uint8_t)q->mode);
}

static void fault(const struct question *q, size_t room, const char *what) {
    if (q->of_record) printf("record %zu", q->index);
    else printf("packet %lu, mode %d", packets, q->mode);
    printf(", a buffer of %zu bytes: %s\n", room, what);
    faults++;
}

static int same(termread_result a, termread_result b) { return memcmp(&a, &b, sizeof a) == 0; }

/* All fields but those of a line, or of a refusal, are 0. */
static termread_result only(uint8_t outcome, uint8_t kind, uint8_t refusal, uint16_t value) {
    termread_result answer;
    memset(&answer, 0, sizeof answer);
    answer.outcome = outcome;
    answer.kind = kind;
    answer.refusal = refusal;
    answer.value = value;
    return answer;
}

/* The answer at a size, which is `wanted`; what is written is `line`, of `length` bytes. */
static void at_size(const struct question *q, size_t room, uint8_t filler, termread_result wanted, const uint8_t *line, size_t length) {
    uint8_t area[AREA], expected[AREA];
    memset(area, filler, AREA);
    memcpy(expected, area, AREA);
    memcpy(expected + BEFORE, line, length);
    if (!same(ask(q, area + BEFORE, room), wanted)) fault(q, room, "another answer");
    if (memcmp(area, expected, AREA) != 0) fault(q, room, "other bytes in the buffer or beside it");
}

/* At each size that matters; the answer at the greatest. */
static termread_result try(const struct question *q) {
    uint8_t line[ROOM_MOST];
    termread_result first;
    size_t length, room, most = q->of_record ? TERMREAD_RECORD_LINE_MOST : TERMREAD_RAW_LINE_MOST;
    memset(line, 0, sizeof line);
    first = ask(q, line, ROOM_MOST);
    length = first.outcome == TERMREAD_LINE ? first.value : 0;
    if (first.outcome == TERMREAD_LINE) {
        lines++;
        if (length == 0 || length > most) fault(q, ROOM_MOST, "a line of no length, or over the greatest");
        if (memchr(line, 0, length) || line[length] != 0) fault(q, ROOM_MOST, "another length than the line's");
        if (q->of_record ? first.kind != 0 : first.kind != TERMREAD_SYN && first.kind != TERMREAD_SYNACK)
            fault(q, ROOM_MOST, "another kind");
        if (!same(first, only(TERMREAD_LINE, first.kind, 0, first.value))) fault(q, ROOM_MOST, "a line with more fields");
    } else if (first.outcome == TERMREAD_NOTHING && !q->of_record) {
        if (!same(first, only(TERMREAD_NOTHING, 0, 0, 0))) fault(q, ROOM_MOST, "nothing with more fields");
    } else if (!same(first, only(TERMREAD_REFUSED, 0, first.refusal, first.value)) || first.refusal == TERMREAD_REFUSED_BUFFER) {
        fault(q, ROOM_MOST, "neither a line nor nothing nor a refusal but 15");
    }
    for (room = 0; room <= ROOM_MOST; room++) {
        uint8_t filler = room % 2 ? 0xAA : 0;
        if (room > 1 && room + 1 != length && room != length && room != length + 1 && room != most && room != ROOM_MOST) continue;
        if (room < length) {
            at_size(q, room, filler, only(TERMREAD_REFUSED, 0, TERMREAD_REFUSED_BUFFER, 0), line, 0);
        } else {
            at_size(q, room, filler, first, line, length);
            at_size(q, room, (uint8_t)~filler, first, line, length);
        }
    }
    return first;
}

/* The line of a packet is one of the kind that it is answered with; without one, the answer is the one that a search gives. */
static void try_packet(const uint8_t *packet, size_t length, uint16_t peer) {
    static const uint8_t list[8];
    struct question q = {0};
    q.bytes = packet;
    q.length = length;
    q.peer = peer;
    for (q.mode = -1; q.mode <= TERMREAD_STRICT; q.mode++) {
        uint8_t mode = q.mode < 0 ? TERMREAD_PLAIN : (uint8_t)q.mode;
        termread_result answer = termread_answer_in(packet, length, peer, list, sizeof list, mode), line = try(&q);
        if (answer.outcome == TERMREAD_NONE ? line.outcome != TERMREAD_LINE || line.kind != answer.kind : !same(line, answer))
            fault(&q, ROOM_MOST, "not as the packet is answered");
    }
    packets++;
}

/* Of a long list the first records at each size, the others at one: the list is checked anew each time. */
static termread_result of_record(const struct question *q) {
    uint8_t line[ROOM_MOST];
    termread_result answer;
    if (q->index < 40) return try(q);
    answer = ask(q, line, ROOM_MOST);
    if (answer.outcome != TERMREAD_LINE) return try(q);
    lines++;
    return answer;
}

/* Every record, and an index behind the last, and the greatest one. A list that is refused is so whatever the index. */
static void try_list(const uint8_t *list, size_t length) {
    struct question q = {0};
    termread_result checked = termread_check_list(list, length), answer;
    q.bytes = list;
    q.length = length;
    q.of_record = 1;
    for (answer = of_record(&q); answer.outcome == TERMREAD_LINE; answer = of_record(&q)) records++, q.index++;
    if (checked.outcome == TERMREAD_GOOD) {
        if (q.index != be16(list) || !same(answer, only(TERMREAD_REFUSED, 0, TERMREAD_REFUSED_INDEX, 0)))
            fault(&q, ROOM_MOST, "not a line for each record, and 23 behind the last");
    } else if (!same(answer, checked)) {
        fault(&q, ROOM_MOST, "not the refusal of the list");
    }
    q.index = SIZE_MAX;
    if (!same(try(&q), answer)) fault(&q, ROOM_MOST, "another answer for the greatest index");
}

int main(void) {
    static uint8_t bundle[BUNDLE_MOST + 1];
    size_t length = fread(bundle, 1, sizeof bundle, stdin), at = be16(bundle + 2), left;
    if (length > BUNDLE_MOST || be16(bundle + 6) + be16(bundle + 4) > length) return fprintf(stderr, "lines: no bundle\n"), 2;
    try_list(bundle + be16(bundle + 6), be16(bundle + 4));
    for (left = be16(bundle); left > 0; left--) {
        if (at + 4 > length || at + 4 + be16(bundle + at + 2) > length) return fprintf(stderr, "lines: no bundle\n"), 2;
        try_packet(bundle + at + 4, be16(bundle + at + 2), (uint16_t)be16(bundle + at));
        at += 4 + be16(bundle + at + 2);
    }
    printf("packets %lu, records %lu, lines %lu, faults %lu\n", packets, records, lines, faults);
    return 0;
}
