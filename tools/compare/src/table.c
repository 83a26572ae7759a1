/* The documents' tables of refusals, written from their text alone. */
#include "numbers.h"

static size_t min_size(size_t a, size_t b) { return a < b ? a : b; }

/* "from 4 x header length to total length, for v6 from 40 to 40 + payload length, never past the slice" */
void tcp_part(const uint8_t *p, size_t size, size_t *start, size_t *end) {
    if (p[0] >> 4 == 4) {
        *start = 4u * (p[0] & 15);
        *end = min_size(be16_at(p + 2), size);
    } else {
        *start = 40;
        *end = min_size(40u + be16_at(p + 4), size);
    }
    if (*end < *start) *end = *start;
}

static int invalid_flags(uint8_t f) {
    int fin = f & 1, syn = f >> 1 & 1, rst = f >> 2 & 1, ack = f >> 4 & 1;
    return (syn && (fin || rst)) || (fin && rst) || !(syn || ack || fin || rst);
}

/* The number of a packet's refusal, 0 if it has none; flags is set for 7. */
int table_packet(const uint8_t *p, size_t size, uint8_t *flags) {
    size_t start, end;
    int v4;
    *flags = 0;
    if (size == 0 || (p[0] >> 4 != 4 && p[0] >> 4 != 6)) return 1;
    v4 = p[0] >> 4 == 4;
    if (size < (v4 ? 20u : 40u)) return 2;
    if (v4 && (p[0] & 15) < 5) return 3;
    if (p[v4 ? 9 : 6] != 6) return 4;
    if (v4 && ((be16_at(p + 6) & 0x1fff) > 0 || (p[6] & 0x20))) return 5;
    tcp_part(p, size, &start, &end);
    if (end - start < 20) return 6;
    if (invalid_flags(p[start + 13])) {
        *flags = p[start + 13];
        return 7;
    }
    return 0;
}

/* Whether the strict mode refuses a packet by 14: "after 6 and before 7, exactly when data offset is under 5 or 4 x data offset exceeds
   the TCP part" (document 02, Wish 2). */
int table_strict(const uint8_t *p, size_t size) {
    size_t start, end;
    uint8_t flags;
    unsigned offset;
    int row = table_packet(p, size, &flags);
    if (row >= 1 && row <= 6) return 0;
    tcp_part(p, size, &start, &end);
    offset = p[start + 12] >> 4;
    return offset < 5 || 4 * offset > end - start;
}

static int bad_scalars(const uint8_t *r) {
    unsigned window = be16_at(r + 9);
    if (r[0] != 0 && r[0] != 4 && r[0] != 6) return 1;
    if (r[1] > 3 || (r[1] != 1 && r[3] != 0)) return 1;
    if (r[5] > 1 || (r[5] == 0 && be16_at(r + 6) != 0)) return 1;
    if (r[8] > 4 || (r[8] == 0 && window != 0) || (r[8] >= 3 && window > 255)) return 1;
    if (r[11] > 1 || (r[11] == 0 && r[12] != 0)) return 1;
    if (r[13] > 2 || r[21] > 1) return 1;
    return (be32_at(r + 14) & ~UINT32_C(0x1F03F03F)) != 0;
}

static int bad_layout(const uint8_t *r, const uint8_t *entries, unsigned all) {
    unsigned first = be16_at(r + 18), count = r[20], i;
    if (count > 40 || first + count > all) return 1;
    for (i = first; i < first + count; i++)
        if (entries[2 * i] != 0 && entries[2 * i + 1] != 0) return 1;
    return 0;
}

/* 0, 9, or 10 with the index of the first bad record. */
int table_list(const uint8_t *list, size_t size, size_t *index) {
    size_t i, records, at, entries, entries_at;
    *index = 0;
    if (size < 8) return 9;
    records = be16_at(list), at = be16_at(list + 2);
    entries = be16_at(list + 4), entries_at = be16_at(list + 6);
    if (at + 24 * records > size || entries_at + 2 * entries > size) return 9;
    for (i = 0; i < records; i++)
        if (bad_scalars(list + at + 24 * i) || bad_layout(list + at + 24 * i, list + entries_at, (unsigned)entries)) {
            *index = i;
            return 10;
        }
    return 0;
}
