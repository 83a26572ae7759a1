/* Numbers in bytes, by shifts: gcc makes one load of each, and a byte swap of those whose high byte comes first. */
#ifndef LIMIT_BYTES_H
#define LIMIT_BYTES_H

#include <stdint.h>
#include <string.h>

/* Low byte first: for comparing and masking, where the order does not matter. */
static inline uint32_t low16(const uint8_t *p)
{
    return (uint32_t)p[0] | (uint32_t)p[1] << 8;
}

static inline uint32_t low32(const uint8_t *p)
{
    return (uint32_t)p[0] | (uint32_t)p[1] << 8 | (uint32_t)p[2] << 16 | (uint32_t)p[3] << 24;
}

static inline uint64_t low64(const uint8_t *p)
{
    return (uint64_t)p[0] | (uint64_t)p[1] << 8 | (uint64_t)p[2] << 16 | (uint64_t)p[3] << 24 | (uint64_t)p[4] << 32 |
           (uint64_t)p[5] << 40 | (uint64_t)p[6] << 48 | (uint64_t)p[7] << 56;
}

/* In the machine's order: for comparing with others that were read so. */
static inline uint16_t raw16(const uint8_t *p)
{
    uint16_t raw;
    memcpy(&raw, p, sizeof raw);
    return raw;
}

static inline uint64_t raw64(const uint8_t *p)
{
    uint64_t raw;
    memcpy(&raw, p, sizeof raw);
    return raw;
}

/* High byte first: numbers of packets and lists. */
static inline uint16_t high16(const uint8_t *p)
{
    return (uint16_t)(p[0] << 8 | p[1]);
}

static inline uint32_t high32(const uint8_t *p)
{
    return (uint32_t)p[0] << 24 | (uint32_t)p[1] << 16 | (uint32_t)p[2] << 8 | (uint32_t)p[3];
}

#endif
