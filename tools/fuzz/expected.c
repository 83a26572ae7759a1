/* The text that the documents ask for: the bundle by its rules, each answer by the original. */
#include "fuzz.h"

#include <stdio.h>
#include <string.h>

const char *const line_names[LINES] = {"syn exact", "syn fuzzy", "syn none", "synack exact", "synack fuzzy", "synack none", "nothing",
                                       "refused 1", "refused 2", "refused 3", "refused 4", "refused 5", "refused 6", "refused 7"};

static void say(Text *text, const char *word, int numbered, unsigned number) {
    size_t room = TEXT_MOST - text->size;
    int n = numbered ? snprintf(text->bytes + text->size, room, "%s %u\n", word, number)
                     : snprintf(text->bytes + text->size, room, "%s\n", word);
    text->size += (size_t)n;
}

/* "its header, list area or a packet does not fit", or over 65,535 bytes. */
static int does_not_fit(const uint8_t *b, size_t size) {
    size_t at, left;
    if (size > BUNDLE_MOST || size < 8 || be16_at(b + 4) + be16_at(b + 6) > size) return 1;
    at = be16_at(b + 2);
    for (left = be16_at(b); left; left--) {
        if (at + 4 > size) return 1;
        at += 4 + be16_at(b + at + 2);
    }
    return at > size;
}

static void say_answer(const uint8_t *packet, size_t size, uint16_t peer, const uint8_t *list, size_t list_size, Text *text,
                       Tally *tally) {
    uint8_t o[OBSERVATION];
    Numbers reading, found;
    unsigned line, numbered = 0, number = 0;
    oracle_packet(packet, size, peer, 0, &reading, o);
    if (reading.n[0] >= 256) {
        line = 6 + (unsigned)(reading.n[0] / 256);
    } else if (reading.n[0] == 3) {
        line = 6;
    } else {
        oracle_search(o, list, list_size, &found);
        line = found.n[0] >= 196608 ? 1 : found.n[0] >= 131072 ? 0 : 2;
        numbered = line < 2, number = (unsigned)(found.n[0] & 65535);
        tally->generic[line == 1] += numbered && found.n[6];
        if (reading.n[0] == 2) line += 3;
        if (found.n[0] < 65536) line = LINES;
    }
    if (line >= LINES) {
        say(text, "the original has no answer", 0, 0);
        return;
    }
    tally->lines[line]++;
    say(text, line_names[line], (int)numbered, number);
}

void expected_text(const Input *input, Text *text, Tally *tally) {
    const uint8_t *b = input->bytes, *list;
    size_t index, at, left, list_size;
    int refused;
    text->size = 0;
    tally->over += input->size > BUNDLE_MOST;
    if (does_not_fit(b, input->size)) {
        tally->refused[2]++;
        say(text, "refused", 1, 12);
        return;
    }
    list = b + be16_at(b + 6), list_size = be16_at(b + 4);
    refused = table_list(list, list_size, &index);
    if (refused) {
        tally->refused[refused - 9]++;
        say(text, "refused", 1, (unsigned)refused);
        return;
    }
    tally->good++;
    say(text, "packets", 1, be16_at(b));
    at = be16_at(b + 2);
    for (left = be16_at(b); left; left--) {
        say_answer(b + at + 4, be16_at(b + at + 2), (uint16_t)be16_at(b + at), list, list_size, text, tally);
        at += 4 + be16_at(b + at + 2);
    }
    tally->pages += text->size > 4096;
}
