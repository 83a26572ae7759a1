/* The answer of a packet against a list that was checked. */
#include "limit.h"
#include "multiple.h"
#include "options.h"
#include "packet.h"

enum {
    RECORD = 24,
    AT_ONCE = 8, /* records to a turn of the loop */
    MAY_BE_ADDED = 0x09,
    MAY_BE_MISSING = 0x06,
    MOST_HOPS = 35
};

/* What a search looks at. */
typedef struct {
    const limit_observation *seen; /* its layout, window, TTL and quirks apart */
    const tcp_part *tcp;
    const uint8_t *list;
    const uint8_t *entries; /* the layout, kind and byte by turns as in a list */
    uint8_t count;
    uint16_t scale;         /* as a record's bytes 11 and 12 */
    uint16_t window;        /* as a record's bytes 9 and 10 */
    uint32_t quirks;
    uint32_t multiple;      /* the window's */
    uint16_t peer;
    unsigned what;
    int stamped;
} features;

/* ---- the gates */

/* The number of the window, whose bytes are kept as they are in the packet. */
static inline uint32_t window_seen(const features *features)
{
    uint8_t bytes[2];
    memcpy(bytes, &features->window, sizeof bytes);
    return high16(bytes);
}

/* Most windows that are a multiple are one of the MSS; the others are looked for in multiple.c. */
static inline uint32_t multiple_seen(const features *features)
{
    const limit_observation *seen = features->seen;
    uint32_t window = window_seen(features);
    uint32_t mss = seen->mss;
    if (window == 0 || mss < LEAST_MSS)
        return NO_MULTIPLE;
    if (window % mss == 0)
        return limit_times(OF_MSS, window / mss);
    int stamped = features->stamped && (features->quirks & TERMREAD_QUIRK_OWN_TIMESTAMP_ZERO) == 0;
    uint32_t peer = features->what == IS_SYN ? 0 : features->peer;
    return limit_other_multiple(window, mss, seen->tot_hdr, peer, stamped, features->tcp->other == 4);
}

static inline int layout_fits(const uint8_t *record, const features *features)
{
    const uint8_t *entries = features->list + high16(features->list + 6) + 2 * (size_t)high16(record + 18);
    size_t size = 2 * (size_t)features->count;
    if (size < 8) {
        for (size_t i = 0; i < size; i += 2)
            if (raw16(entries + i) != raw16(features->entries + i))
                return 0;
        return 1;
    }
    for (size_t i = 0; i < size - 8; i += 8)
        if (raw64(entries + i) != raw64(features->entries + i))
            return 0;
    return raw64(entries + size - 8) == raw64(features->entries + size - 8);
}

/* The gates behind those of count and scale. The window's multiple is looked for once, when the first record asks for it. */
static inline int others_fit(const uint8_t *record, features *features)
{
    const limit_observation *seen = features->seen;
    if (record[5] != 0 && (!seen->has_mss || seen->mss != high16(record + 6)))
        return 0;
    unsigned form = record[8];
    if (form == 1) {
        if (raw16(record + 9) != features->window)
            return 0;
    } else if (form > 2) {
        if (features->multiple == UNKNOWN)
            features->multiple = multiple_seen(features);
        if (features->multiple != (form | (uint32_t)record[10] << 16))
            return 0;
    } else if (form == 2 && (raw16(record + 9) == 0 || window_seen(features) % high16(record + 9) != 0))
        return 0;
    if (record[4] != seen->olen || record[13] == !seen->pclass || record[0] == features->tcp->other)
        return 0;
    return layout_fits(record, features);
}

static inline int may_fit(const uint8_t *record, uint8_t count, uint16_t scale)
{
    return record[20] == count && (raw16(record + 11) == scale || record[11] == 0);
}

/* The first record from one on that passes the gates of count and scale, or the end: most are passed over by their count alone. Places are
   offsets: of addresses gcc computes each before it is asked for. */
static inline ptrdiff_t next(const uint8_t *records, ptrdiff_t at, ptrdiff_t end, uint8_t count, uint16_t scale)
{
    for (; at <= end - AT_ONCE * RECORD; at += AT_ONCE * RECORD) {
        if (may_fit(records + at, count, scale))
            return at;
        if (may_fit(records + at + RECORD, count, scale))
            return at + RECORD;
        if (may_fit(records + at + 2 * RECORD, count, scale))
            return at + 2 * RECORD;
        if (may_fit(records + at + 3 * RECORD, count, scale))
            return at + 3 * RECORD;
        if (may_fit(records + at + 4 * RECORD, count, scale))
            return at + 4 * RECORD;
        if (may_fit(records + at + 5 * RECORD, count, scale))
            return at + 5 * RECORD;
        if (may_fit(records + at + 6 * RECORD, count, scale))
            return at + 6 * RECORD;
        if (may_fit(records + at + 7 * RECORD, count, scale))
            return at + 7 * RECORD;
    }
    while (at < end && !may_fit(records + at, count, scale))
        at += RECORD;
    return at;
}

/* ---- TTL and quirks */

/* The record's quirks, less those that only the other version has if it is of any version. */
static inline uint32_t quirks_declared(const uint8_t *record, const features *features)
{
    uint32_t quirks = high32(record + 14);
    if (record[0] == 0)
        quirks &= ~features->tcp->dropped;
    return quirks;
}

/* What has to be tolerated of TTL and quirks that are not exact, as the last four bytes of a result, the first lowest; 0 if they do not
   fit. */
static inline uint32_t tolerated(const uint8_t *record, uint32_t declared, const features *features)
{
    uint32_t added = features->quirks & ~declared;
    uint32_t missing = declared & ~features->quirks;
    if (((added & ~(uint32_t)MAY_BE_ADDED) | (missing & ~(uint32_t)MAY_BE_MISSING)) != 0)
        return 0;
    int initial = record[2] + record[3];
    int hops = (initial > 255 ? 255 : initial) - features->tcp->ttl;
    uint32_t quirks = added | missing << 8 | (uint32_t)record[21] << 26;
    if (record[1] == 3)
        return hops < 0 ? 0 : quirks;
    if (hops >= 0 && hops <= MOST_HOPS)
        return quirks;
    return quirks | (uint32_t)TERMREAD_OUT_OF_RANGE << 24 | (hops < 0 ? 0 : (uint32_t)hops << 16);
}

/* Nothing has to be. Up to 35 hops from the sum of TTL and distance are in range in every form, also where the sum is above 255. */
static inline int is_exact(const uint8_t *record, uint32_t declared, const features *features)
{
    if (declared != features->quirks)
        return 0;
    int sum = record[2] + record[3];
    if ((unsigned)(sum - features->tcp->ttl) <= MOST_HOPS)
        return 1;
    return (record[1] == 3 && sum >= features->tcp->ttl) || (sum > 255 && features->tcp->ttl >= 255 - MOST_HOPS);
}

/* ---- the answer */

static inline termread_result exact(unsigned what, const uint8_t *record, size_t number, size_t examined, unsigned marks)
{
    termread_result result = {0};
    result.outcome = TERMREAD_EXACT;
    result.kind = (uint8_t)what;
    result.label = high16(record + 22);
    result.number = (uint16_t)number;
    result.examined = (uint16_t)examined;
    result.marks = (uint8_t)marks;
    return result;
}

static inline termread_result fuzzy(unsigned what, const uint8_t *record, size_t number, size_t examined, uint32_t how)
{
    termread_result result = exact(what, record, number, examined, how >> 24);
    result.outcome = TERMREAD_FUZZY;
    result.added = (uint8_t)how;
    result.missing = (uint8_t)(how >> 8);
    result.hops = (uint8_t)(how >> 16);
    return result;
}

static termread_result unsearched(unsigned what)
{
    termread_result result = {0};
    result.outcome = what == IS_NOTHING ? TERMREAD_NOTHING : TERMREAD_REFUSED;
    result.refusal = what == IS_NOTHING ? 0 : (uint8_t)((what & 0xff) - IS_REFUSED);
    result.value = (uint16_t)(what >> 8);
    return result;
}

/* A specific exact record ends the search; of the others the first of each kind is held. */
static inline termread_result search(features *features)
{
    unsigned what = features->what;
    const uint8_t *records = features->list + high16(features->list + 2);
    size_t size = high16(features->list);
    ptrdiff_t end = RECORD * (ptrdiff_t)size;
    const uint8_t *generic = NULL, *close = NULL;
    uint32_t how = 0;
    for (ptrdiff_t at = 0;; at += RECORD) {
        at = next(records, at, end, features->count, features->scale);
        if (at >= end)
            break;
        const uint8_t *record = records + at;
        if (!others_fit(record, features))
            continue;
        uint32_t declared = quirks_declared(record, features);
        if (is_exact(record, declared, features)) {
            if (record[21] == 0)
                return exact(what, record, (size_t)at / RECORD, (size_t)at / RECORD + 1, 0);
            generic = generic == NULL ? record : generic;
        } else if (how == 0) {
            close = record;
            how = tolerated(record, declared, features);
        }
    }
    if (generic != NULL)
        return exact(what, generic, (size_t)(generic - records) / RECORD, size, TERMREAD_GENERIC);
    if (how != 0)
        return fuzzy(what, close, (size_t)(close - records) / RECORD, size, how);
    return (termread_result){.outcome = TERMREAD_NONE, .kind = (uint8_t)what, .examined = (uint16_t)size};
}

termread_result limit_answer_checked(const uint8_t *packet, size_t size, uint16_t peer, const uint8_t *list, size_t length)
{
    (void)length;
    limit_observation seen;
    tcp_part tcp;
    unsigned what = read_headers(packet, size, &seen, &tcp);
    if (what > IS_SYNACK)
        return unsearched(what);
    uint16_t window = raw16(tcp.start + 14);
    uint8_t entries[80];
    seen.mss = 0;
    seen.has_mss = 0;
    seen.scale[0] = 0;
    seen.scale[1] = 0;
    walking walk = {tcp.start + 20, entries, tcp.quirks, 0};
    walk_options(tcp.end, 2, 1, what == IS_SYN, &seen, &walk);
    features features = {&seen, &tcp, list, entries, (uint8_t)((size_t)(walk.out - entries) / 2), raw16(seen.scale), window,
                         walk.quirks, UNKNOWN, peer, what, walk.stamped};
    return search(&features);
}
