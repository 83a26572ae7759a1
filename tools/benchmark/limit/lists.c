/* Lists for `same` whose records are near what was seen. */
#include <string.h>

#include "made.h"

enum {
    RECORD = 24
};

static void set16(uint8_t *at, uint32_t number)
{
    at[0] = (uint8_t)(number >> 8);
    at[1] = (uint8_t)number;
}

/* One that a window may be a multiple of, or another. */
static uint32_t divisor(const limit_observation *seen)
{
    uint32_t mss = seen->mss;
    uint32_t peer = seen->peer_mss;
    uint32_t sizes[12] = {mss, mss - 12, 1460, 1448, 1440, 1428, mss + 40, mss + seen->tot_hdr, mss + 60, 1500, peer, peer - 12};
    uint32_t size = sizes[below(12)];
    return size == 0 || size > 70000 ? 1 : size > 65535 ? 65535 : size;
}

uint16_t made_window(const limit_observation *seen)
{
    uint32_t size = divisor(seen);
    uint32_t window = size * (1 + below(65535 / size < 260 ? 65535 / size : 260));
    return (uint16_t)(below(8) == 0 ? window + 1 : window);
}

static void window_of_record(uint8_t *record, const limit_observation *seen)
{
    record[8] = (uint8_t)below(5);
    if (record[8] == 1)
        set16(record + 9, below(4) == 0 ? below(65536) : seen->wsize);
    if (record[8] == 2)
        set16(record + 9, below(4) == 0 ? below(65536) : below(9));
    if (record[8] > 2) {
        uint32_t times = seen->wsize / divisor(seen);
        record[10] = (uint8_t)(times < 256 && below(8) != 0 ? times : below(256));
    }
}

static void made_quirks(uint8_t *record, uint32_t quirks)
{
    if (below(2) == 0)
        quirks ^= 1u << below(6);
    if (below(8) == 0)
        quirks ^= 1u << below(32);
    quirks &= 0x1f03f03f;
    set16(record + 14, quirks >> 16);
    set16(record + 16, quirks & 0xffff);
}

static void made_record(uint8_t *record, const limit_observation *seen)
{
    static const uint8_t versions[4] = {0, 0, 4, 6};
    memset(record, 0, RECORD);
    record[0] = versions[below(4)];
    record[1] = (uint8_t)below(4);
    record[2] = (uint8_t)(seen->ttl.byte + below(40));
    if (record[1] == 1)
        record[3] = (uint8_t)below(below(4) == 0 ? 256 : 30);
    record[4] = (uint8_t)(below(16) == 0 ? below(256) : seen->olen);
    record[5] = seen->has_mss ? (uint8_t)below(2) : below(8) == 0;
    if (record[5] != 0)
        set16(record + 6, below(8) == 0 ? below(65536) : seen->mss);
    window_of_record(record, seen);
    record[11] = seen->scale[0] ? (uint8_t)below(2) : below(8) == 0;
    if (record[11] != 0)
        record[12] = (uint8_t)(below(8) == 0 ? below(16) : seen->scale[1]);
    record[13] = (uint8_t)(below(2) == 0 ? 2 : below(3));
    made_quirks(record, seen->quirks);
    record[21] = below(3) == 0;
    set16(record + 22, below(65536));
}

/* The layout that was seen, or nearly; how many entries. */
static size_t made_layout(uint8_t *entries, const limit_observation *seen)
{
    size_t count = seen->count;
    for (size_t i = 0; i < 40; i++) {
        entries[2 * i] = seen->kinds[i];
        entries[2 * i + 1] = seen->bytes[i];
    }
    if (count != 0 && below(6) == 0) {
        size_t at = below((uint32_t)count);
        entries[2 * at] = (uint8_t)(below(2) == 0 ? 0 : 9);
        entries[2 * at + 1] = entries[2 * at] == 0 ? (uint8_t)below(4) : 0;
    }
    return below(12) == 0 ? below(41) : count;
}

size_t made_list(uint8_t *list, const limit_observation *seen)
{
    size_t records = below(24);
    uint8_t *at = list + 8 + RECORD * records;
    size_t entries = 0;
    for (size_t i = 0; i < records; i++) {
        uint8_t *record = list + 8 + RECORD * i;
        made_record(record, seen);
        size_t count = made_layout(at + 2 * entries, seen);
        set16(record + 18, (uint32_t)entries);
        record[20] = (uint8_t)count;
        entries += count;
    }
    set16(list, (uint32_t)records);
    set16(list + 2, 8);
    set16(list + 4, (uint32_t)entries);
    set16(list + 6, (uint32_t)(8 + RECORD * records));
    return 8 + RECORD * records + 2 * entries;
}

size_t counted_list(uint8_t *list, uint8_t first, uint8_t second, uint8_t entries)
{
    size_t size = 8 + 2 * RECORD + 2 * (size_t)entries;
    memset(list, 0, size);
    set16(list, 2);
    set16(list + 2, 8);
    set16(list + 4, entries);
    set16(list + 6, 8 + 2 * RECORD);
    list[8 + 20] = first;
    list[8 + RECORD + 20] = second;
    return size;
}
