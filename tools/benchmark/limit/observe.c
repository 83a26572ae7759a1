/* The observation. */
#include <string.h>

#include "limit.h"
#include "options.h"
#include "packet.h"

/* The readings of all 256 TTL bytes, each by the rule: up to 32, 64, 128 or 255, and a distance of at most 30. */
#define UP(t) ((t) <= 32 ? 32 - (t) : (t) <= 64 ? 64 - (t) : (t) <= 128 ? 128 - (t) : 255 - (t))
#define READING(t) {(t) == 0 ? 3 : UP(t) <= 30, (t), (t) != 0 && UP(t) <= 30 ? UP(t) : 0, 0}
#define READINGS_4(t) READING(t), READING((t) + 1), READING((t) + 2), READING((t) + 3)
#define READINGS_16(t) READINGS_4(t), READINGS_4((t) + 4), READINGS_4((t) + 8), READINGS_4((t) + 12)
#define READINGS_64(t) READINGS_16(t), READINGS_16((t) + 16), READINGS_16((t) + 32), READINGS_16((t) + 48)

static const limit_ttl readings[256] = {READINGS_64(0), READINGS_64(64), READINGS_64(128), READINGS_64(192)};

static uint8_t no_observation(unsigned what, limit_observation *seen)
{
    memset(seen, 0, sizeof *seen);
    seen->version = 4;
    return what == IS_NOTHING ? 3 : 4;
}

uint8_t limit_read(const uint8_t *restrict packet, size_t size, uint16_t peer, limit_observation *restrict seen)
{
    uint8_t *layout = (uint8_t *)seen; /* the bytes of `kinds`, then those of `bytes` */
    memset(layout, 0, 80);
    seen->mss = 0;
    seen->peer_mss = 0;
    seen->has_mss = 0;
    seen->scale[0] = 0;
    seen->scale[1] = 0;
    tcp_part tcp;
    unsigned what = read_headers(packet, size, seen, &tcp);
    if (what > IS_SYNACK)
        return no_observation(what, seen);
    if (what == IS_SYNACK)
        seen->peer_mss = peer;
    seen->ttl = readings[tcp.ttl];
    seen->wsize = high16(tcp.start + 14);
    walking walk = {tcp.start + 20, layout, tcp.quirks, 0};
    walk_options(tcp.end, 1, 40, what == IS_SYN, seen, &walk);
    seen->count = (uint32_t)(walk.out - layout);
    seen->quirks = walk.quirks;
    return (uint8_t)what;
}
