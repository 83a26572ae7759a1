/* The port's answers in the common numbering. */
#include "written.h"

#include <string.h>

static uint64_t word_at(const uint8_t *p) { return (uint64_t)be32_at(p) << 32 | be32_at(p + 4); }

/* A value that is absent is 0; one that is there has `has` before it. */
static uint64_t present(uint8_t has, unsigned value) { return has * UINT64_C(65536) + value; }

static void layout_numbers(uint64_t count, const uint8_t *kinds, const uint8_t *bytes, Numbers *out) {
    int i;
    out->n[20] = count;
    for (i = 0; i < 5; i++) {
        out->n[21 + i] = word_at(kinds + 8 * i);
        out->n[26 + i] = word_at(bytes + 8 * i);
    }
}

void port_packet(const uint8_t *p, size_t size, uint16_t peer, uint8_t mode, Numbers *out) {
    witness_packet_read read = witness_packet(p, size, peer, mode);
    const witness_observation *o = &read.observation;
    memset(out, 0, sizeof *out);
    out->n[0] = read.answer == 4 ? 256u * read.refusal + read.flags : read.answer;
    out->n[1] = o->version;
    out->n[2] = o->ttl_form * 65536u + o->ttl * 256u + o->hops;
    out->n[3] = o->olen;
    out->n[4] = o->tos;
    out->n[5] = o->tot_hdr;
    out->n[6] = o->quirks;
    out->n[7] = present(o->has_mss, o->mss);
    out->n[8] = o->wsize;
    out->n[9] = present(o->has_wscale, o->wscale);
    out->n[10] = o->pclass;
    out->n[11] = present(o->has_peer_mss, o->peer_mss);
    out->n[12] = present(o->multiple_of, o->multiple);
    layout_numbers(o->count, o->kinds, o->bytes, out);
}

void port_options(const uint8_t *s, size_t size, Numbers *out) {
    witness_options_read read = witness_options(s, size);
    memset(out, 0, sizeof *out);
    out->n[0] = read.refusal ? read.refusal : 1;
    out->n[1] = read.malformed;
    out->n[2] = present(read.has_mss, read.mss);
    out->n[3] = present(read.has_wscale, read.wscale);
    layout_numbers(read.count, read.kinds, read.bytes, out);
}

void port_walk(const uint8_t *s, size_t size, uint8_t stop, int syn, Numbers *out) {
    witness_walk_read read = witness_walk(s, size, stop, syn);
    memset(out, 0, sizeof *out);
    out->n[0] = read.refusal ? read.refusal : 1;
    out->n[1] = read.malformed;
    out->n[2] = present(read.has_mss, read.mss);
    out->n[3] = present(read.has_wscale, read.wscale);
    out->n[4] = read.quirks;
    out->n[5] = present(read.has_past, (unsigned)read.past_at);
    out->n[6] = present(read.has_short, (unsigned)read.short_at);
    layout_numbers(read.count, read.kinds, read.bytes, out);
}

void port_search(const uint8_t *observation, const uint8_t *list, size_t size, Numbers *out) {
    witness_search_read read = witness_search(observation_of(observation), list, size);
    memset(out, 0, sizeof *out);
    out->n[0] = read.outcome == 1   ? 131072u + read.label
                : read.outcome == 2 ? 196608u + read.label
                : read.outcome == 3 ? 65536u
                                    : read.refusal;
    out->n[1] = read.bad_record;
    out->n[2] = present(read.far, read.hops);
    out->n[3] = read.added;
    out->n[4] = read.missing;
    out->n[5] = read.number;
    out->n[6] = read.generic;
    out->n[7] = read.examined;
}

void port_hops(const uint8_t ttls[6], Numbers *out) {
    memset(out, 0, sizeof *out);
    out->n[0] = witness_hops(ttls, 6);
}

/* The table's entry, and the reading that it says. */
void port_ttl(uint8_t byte, Numbers *out) {
    witness_ttl_entry entry = witness_ttl(byte);
    memset(out, 0, sizeof *out);
    out->n[0] = entry.class;
    out->n[1] = byte;
    out->n[2] = entry.class == 1 ? entry.guess : 0;
    out->n[3] = entry.guess;
}

void port_line(const uint8_t *s, size_t size, Numbers *out) {
    witness_line_read read = witness_line(s, size);
    int i;
    memset(out, 0, sizeof *out);
    out->n[0] = read.refusal ? read.refusal : 1;
    out->n[1] = read.offset;
    for (i = 0; i < 3; i++) out->n[2 + i] = word_at(read.raw + 8 * i);
    layout_numbers(read.count, read.kinds, read.bytes, out);
}

/* ---- lines that are written */

enum { GUARD = 64, BUFFER = TEXT_MOST + GUARD };

/* No byte of a line is over 127. */
static uint8_t pattern(size_t i) { return (uint8_t)(128 + i * 37 % 128); }

/* A call, with a buffer that was filled before; adds how many bytes were changed that should not have been. */
static witness_wrote call(const Asked *a, size_t room, uint8_t *buffer, uint64_t *touched) {
    witness_wrote wrote;
    size_t i;
    for (i = 0; i < BUFFER; i++) buffer[i] = pattern(i);
    wrote = a->observation ? witness_raw(buffer, room, *a->observation) : witness_record(buffer, room, a->list, a->size, a->index);
    for (i = wrote.refusal ? 0 : wrote.length; i < BUFFER; i++) *touched += buffer[i] != pattern(i);
    return wrote;
}

static uint64_t answer_of(witness_wrote wrote) { return wrote.refusal ? wrote.refusal : 1; }

void port_written(const Asked *a, const Written *e, Numbers *out, uint64_t *calls, uint64_t *short_ones) {
    uint8_t buffer[BUFFER];
    size_t most = e->refusal ? TEXT_MOST : e->length, some = (size_t)(mixed(e->text, e->length) ^ a->size ^ a->index) % most;
    size_t rooms[4] = {TEXT_MOST, 0, 1, some};
    uint64_t touched = 0;
    witness_line_read read;
    witness_wrote wrote;
    int i;
    if (!e->refusal) rooms[1] = e->length, rooms[2] = e->length - 1;
    memset(out, 0, sizeof *out);
    for (i = 3; i >= 0; i--) {
        wrote = call(a, rooms[i], buffer, &touched);
        out->n[4 * (i > 0) + i] = answer_of(wrote);
        *short_ones += wrote.refusal == 15;
        if (i == 1 && !wrote.refusal) out->n[4] = mixed(buffer, e->length);
    }
    *calls += 4;
    out->n[1] = wrote.length;
    out->n[2] = wrote.bad_record;
    out->n[8] = touched;
    if (wrote.refusal) return;
    out->n[3] = mixed(buffer, e->length);
    read = witness_line(buffer, wrote.length < BUFFER ? wrote.length : BUFFER);
    out->n[9] = read.refusal ? read.refusal : 1;
    reading_numbers(read.raw, read.count, read.kinds, read.bytes, out);
}
