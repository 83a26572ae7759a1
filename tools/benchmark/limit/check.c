/* Whether a list is well formed: a quick check that finds nearly every good list good, and a slow one behind it. */
#include "bytes.h"
#include "limit.h"

enum {
    RECORD = 24,
    MOST_ENTRIES = 40,
    SEVENTEEN = 0x1f03f03f
};

static termread_result refused(uint8_t number, size_t value)
{
    termread_result result = {0};
    result.outcome = TERMREAD_REFUSED;
    result.refusal = number;
    result.value = (uint16_t)value;
    return result;
}

static int numbers_good(const uint8_t *r)
{
    if ((r[0] & ~6) != 0 || r[0] == 2 || r[1] > 3 || (r[1] != 1 && r[3] != 0))
        return 0;
    if (r[5] > 1 || (r[5] == 0 && low16(r + 6) != 0) || r[11] > 1 || (r[11] == 0 && r[12] != 0))
        return 0;
    if (r[8] > 4 || (r[8] == 0 && low16(r + 9) != 0) || (r[8] > 2 && r[9] != 0))
        return 0;
    return r[13] <= 2 && (high32(r + 14) & ~(uint32_t)SEVENTEEN) == 0 && r[21] <= 1;
}

static int layout_good(const uint8_t *record, const uint8_t *area, size_t entries)
{
    size_t first = high16(record + 18);
    size_t count = record[20];
    if (count > MOST_ENTRIES || first + count > entries)
        return 0;
    for (const uint8_t *entry = area + 2 * first; entry != area + 2 * (first + count); entry += 2)
        if (entry[1] != 0 && entry[0] != 0)
            return 0;
    return 1;
}

/* The first bad record, or the size if there is none: one by one. */
static size_t first_bad(const uint8_t *records, size_t size, const uint8_t *area, size_t entries)
{
    size_t i = 0;
    while (i < size && numbers_good(records + RECORD * i) && layout_good(records + RECORD * i, area, entries))
        i++;
    return i;
}

/* ---- the quick check: whether all is good that can be seen to be without looking at each thing by itself

   Bits that no good record has are looked for once, in the union of all records; in that union the count of entries is at least each
   record's. */
static const uint8_t never[RECORD] = {0xf9, 0xfc, 0, 0, 0, 0xfe, 0, 0, 0xf8, 0, 0, 0xfe, 0, 0xfc, 0xe0, 0xfc,
                                      0x0f, 0xc0, 0, 0, 0, 0xfe, 0, 0};

/* What the union cannot show. */
static inline int joined_good(const uint8_t *r, size_t entries)
{
    if (r[0] == 2 || r[13] == 3)
        return 0;
    if (r[3] != 0 && r[1] != 1)
        return 0;
    if (r[5] == 0 && raw16(r + 6) != 0)
        return 0;
    if (r[11] == 0 && r[12] != 0)
        return 0;
    if (r[8] != 1) {
        if (r[8] > 2 ? (r[9] != 0 || r[8] > 4) : (r[8] == 0 && raw16(r + 9) != 0))
            return 0;
    }
    return (size_t)high16(r + 18) + r[20] <= entries;
}

static inline int records_good(const uint8_t *record, const uint8_t *end, size_t entries)
{
    uint64_t all_0 = 0, all_8 = 0, all_16 = 0;
    for (; record != end; record += RECORD) {
        all_0 |= raw64(record);
        all_8 |= raw64(record + 8);
        all_16 |= raw64(record + 16);
        if (!joined_good(record, entries))
            return 0;
    }
    uint8_t last[8];
    memcpy(last, &all_16, sizeof last);
    return ((all_0 & raw64(never)) | (all_8 & raw64(never + 8)) | (all_16 & raw64(never + 16))) == 0 && last[4] <= MOST_ENTRIES;
}

/* Four entries: in none of them are kind and byte both other than 0. Most have no byte, which is seen first. */
static inline int four_good(const uint8_t *at)
{
    const uint64_t kinds = UINT64_C(0x00ff00ff00ff00ff);
    uint64_t four = low64(at);
    return (four & ~kinds) == 0 || (((four & kinds) + kinds) & ((four >> 8 & kinds) + kinds) & ~kinds) == 0;
}

/* All entries of the area, whether a record has them or not. */
static inline int entries_good(const uint8_t *at, size_t entries)
{
    for (; entries >= 16; entries -= 16, at += 32)
        if (!(four_good(at) && four_good(at + 8) && four_good(at + 16) && four_good(at + 24)))
            return 0;
    for (; entries >= 4; entries -= 4, at += 8)
        if (!four_good(at))
            return 0;
    for (; entries != 0; entries--, at += 2)
        if (at[0] != 0 && at[1] != 0)
            return 0;
    return 1;
}

termread_result limit_check_list(const uint8_t *list, size_t length)
{
    if (length < 8)
        return refused(TERMREAD_REFUSED_LIST, 0);
    size_t size = high16(list);
    size_t entries = high16(list + 4);
    const uint8_t *records = list + high16(list + 2);
    const uint8_t *area = list + high16(list + 6);
    if (high16(list + 2) + RECORD * size > length || high16(list + 6) + 2 * entries > length)
        return refused(TERMREAD_REFUSED_LIST, 0);
    if (records_good(records, records + RECORD * size, entries) && entries_good(area, entries))
        return (termread_result){0};
    size_t bad = first_bad(records, size, area, entries);
    return bad == size ? (termread_result){0} : refused(TERMREAD_REFUSED_RECORD, bad);
}

termread_result limit_answer(const uint8_t *packet, size_t size, uint16_t peer, const uint8_t *list, size_t length)
{
    termread_result checked = limit_check_list(list, length);
    if (checked.outcome != TERMREAD_GOOD)
        return checked;
    return limit_answer_checked(packet, size, peer, list, length);
}
