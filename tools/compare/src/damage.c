/* Where an option string is damaged, and what a walk over it says, from the text of documents 01 and 02 alone, and not as a walk goes: what
   the options from an offset on say is put together from what those behind it say, offset by offset from the end of the string. */
#include "damage.h"
#include "../../witness/witness.h"

#include <string.h>

enum { LONGEST = 40, TS1_ZERO = 1 << 24, TS2_NONZERO = 1 << 25, TRAILING = 1 << 26, BIG_SCALE = 1 << 27 };

/* The option that would begin at an offset. */
typedef struct {
    size_t behind; /* where the next one would begin */
    size_t data;   /* its bytes after kind and length byte, clipped */
    int past, is_short;
} At;

/* What the options from an offset on say; -1 is none. */
typedef struct {
    int past, is_short, mss, scale, malformed;
    uint32_t quirks;
    size_t next; /* the offset behind the option, SIZE_MAX if there is none or the walk stops before it */
} From;

static At option_at(const uint8_t *s, size_t size, size_t k) {
    At o = {size, 0, 0, 0};
    size_t left = size - k, asked;
    if (s[k] == 0) return o;
    if (s[k] == 1) return o.behind = k + 1, o;
    o.is_short = left >= 2 && s[k + 1] < 2;
    asked = left >= 2 && s[k + 1] >= 2 ? s[k + 1] : 2;
    o.past = asked > left;
    if (!o.past) o.behind = k + asked;
    o.data = o.behind - k < 2 ? 0 : o.behind - k - 2;
    return o;
}

static int any(const uint8_t *s, const uint8_t *end) {
    while (s < end)
        if (*s++) return 1;
    return 0;
}

static uint32_t quirks_of(const uint8_t *s, size_t size, size_t k, const At *o, int syn) {
    const uint8_t *data = s + k + 2;
    uint32_t quirks = 0;
    if (s[k] == 0 && any(s + k + 1, s + size)) quirks |= TRAILING;
    if (s[k] == 3 && o->data >= 1 && *data > 14) quirks |= BIG_SCALE;
    if (s[k] == 8 && o->data >= 4 && !any(data, data + 4)) quirks |= TS1_ZERO;
    if (s[k] == 8 && o->data >= 8 && any(data + 4, data + 8) && syn) quirks |= TS2_NONZERO;
    return quirks;
}

/* The account of an offset, where that of the offset behind its option is known: the later number counts, the earlier place. */
static From account(const uint8_t *s, size_t size, size_t k, uint8_t stop, int syn, const From *later) {
    At o = option_at(s, size, k);
    From from = later[o.behind];
    if ((o.past && stop & WITNESS_PAST) || (o.is_short && stop & WITNESS_SHORT)) {
        from = later[size];
        from.malformed = 1, from.quirks = OPT_BAD;
    } else {
        from.quirks |= quirks_of(s, size, k, &o, syn);
        if (s[k] == 2 && from.mss < 0 && o.data >= 2) from.mss = (int)be16_at(s + k + 2);
        if (s[k] == 3 && from.scale < 0 && o.data >= 1) from.scale = s[k + 2];
        from.next = o.behind;
    }
    if (o.past) from.past = (int)k;
    if (o.is_short) from.is_short = (int)k;
    return from;
}

static uint64_t present(int value) { return value < 0 ? 0 : 65536u + (unsigned)value; }

static uint64_t word_at(const uint8_t *p) { return (uint64_t)be32_at(p) << 32 | be32_at(p + 4); }

void model_walk(const uint8_t *s, size_t size, uint8_t stop, int syn, Numbers *out) {
    From from[LONGEST + 1];
    uint8_t rows[2][LONGEST] = {{0}};
    size_t k;
    int i;
    memset(out, 0, sizeof *out);
    out->n[0] = size > LONGEST ? 8 : 1;
    if (size > LONGEST) return;
    from[size] = (From){-1, -1, -1, -1, 0, 0, SIZE_MAX};
    for (k = size; k-- > 0;) from[k] = account(s, size, k, stop, syn, from);
    for (k = 0; from[k].next != SIZE_MAX; k = from[k].next) {
        rows[0][out->n[20]] = s[k];
        rows[1][out->n[20]++] = s[k] == 0 ? (uint8_t)(size - k - 1) : 0;
    }
    out->n[1] = (unsigned)from->malformed;
    out->n[2] = present(from->mss);
    out->n[3] = present(from->scale);
    out->n[4] = from->quirks;
    out->n[5] = present(from->past);
    out->n[6] = present(from->is_short);
    for (i = 0; i < 5; i++) out->n[21 + i] = word_at(rows[0] + 8 * i), out->n[26 + i] = word_at(rows[1] + 8 * i);
}

int first_damage(const Numbers *walk) {
    uint64_t past = walk->n[5], is_short = walk->n[6], first = past && (!is_short || past < is_short) ? past : is_short;
    return first ? (int)(first - 65536) : -1;
}

size_t packet_options(const uint8_t *p, size_t size, const uint8_t **options) {
    size_t start, end, header;
    tcp_part(p, size, &start, &end);
    header = 4u * (p[start + 12] >> 4);
    if (header > end - start) header = end - start;
    *options = p + start + 20;
    return header > 20 ? header - 20 : 0;
}

int made_sound(uint8_t *p, size_t size) {
    const uint8_t *options;
    size_t n = packet_options(p, size, &options);
    Numbers walk;
    int first;
    model_walk(options, n, WITNESS_NOTHING, 0, &walk);
    first = first_damage(&walk);
    if (first < 0) return 0;
    memset(p + (options - p) + first, 1, n - (size_t)first);
    return (int)n - first;
}

void take_filling(Numbers *answer, int filling) {
    int i;
    answer->n[6] |= OPT_BAD;
    while (filling--) {
        i = (int)--answer->n[20];
        answer->n[21 + i / 8] &= ~(UINT64_C(255) << (56 - 8 * (i % 8)));
    }
}
