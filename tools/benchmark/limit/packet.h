/* Both headers of a packet, for observe.c and search.c, each of which makes one function of it. What is usual leaves by the fewest tests;
   what is rare is behind one of them. Numbers go to the observation as soon as they are known: in observe.c that is memory of the caller,
   in search.c a variable of which only what is asked for is ever computed. */
#ifndef LIMIT_PACKET_H
#define LIMIT_PACKET_H

#include <stddef.h>
#include <stdint.h>

#include "bytes.h"
#include "limit.h"

/* What a packet is: SYN, SYN+ACK, nothing, or refused by a number, above which the flags byte of refusal 7 stands. */
enum {
    IS_SYN = 1,
    IS_SYNACK = 2,
    IS_NOTHING = 3,
    IS_REFUSED = 16
};

/* The TCP part. */
typedef struct {
    const uint8_t *start;
    size_t size;        /* at least 20 */
    const uint8_t *end; /* of the options */
    uint32_t quirks;    /* of both headers */
    uint32_t dropped;   /* quirks that a record of any version drops against a packet of this one */
    uint8_t other;      /* the other version */
    uint8_t ttl;
} tcp_part;

/* ---- the IP stage: 0, or IS_REFUSED with a number */

static inline unsigned refused(unsigned number)
{
    return IS_REFUSED + number;
}

/* Under 20 bytes. */
static inline unsigned too_short(const uint8_t *packet, size_t size)
{
    if (size != 0 && (packet[0] >> 4 == 4 || packet[0] >> 4 == 6))
        return refused(TERMREAD_REFUSED_TOO_SHORT);
    return refused(TERMREAD_REFUSED_VERSION);
}

static inline uint32_t quirks_of_ipv4(const uint8_t *packet)
{
    uint32_t with_id = low16(packet + 4) != 0 ? TERMREAD_QUIRK_ID_NONZERO : 0;
    if (packet[6] == 0x40 && (packet[1] & 3) == 0)
        return TERMREAD_QUIRK_DF | with_id;
    uint32_t quirks = TERMREAD_QUIRK_DF | with_id;
    if ((packet[6] & 0x40) == 0)
        quirks = with_id != 0 ? 0 : TERMREAD_QUIRK_ID_ZERO;
    return quirks | (packet[6] & 0x80) >> 3 | ((packet[1] & 3) != 0 ? TERMREAD_QUIRK_ECN : 0);
}

static inline unsigned ipv4(const uint8_t *packet, size_t size, limit_observation *seen, tcp_part *tcp)
{
    size_t start = 20;
    if (packet[0] != 0x45) {
        start = 4 * (size_t)(packet[0] & 15);
        if (start < 20)
            return refused(TERMREAD_REFUSED_HEADER_LENGTH);
    }
    if (packet[9] != 6)
        return refused(TERMREAD_REFUSED_PROTOCOL);
    if ((low16(packet + 6) & 0xff3f) != 0)
        return refused(TERMREAD_REFUSED_FRAGMENT);
    size_t end = high16(packet + 2);
    end = end < size ? end : size;
    if (end < start + 20)
        return refused(TERMREAD_REFUSED_TCP_TOO_SHORT);
    seen->version = 4;
    seen->olen = (uint8_t)(start - 20);
    seen->tot_hdr = (uint16_t)start;
    seen->tos = packet[1] >> 2;
    tcp->start = packet + start;
    tcp->size = end - start;
    tcp->dropped = TERMREAD_QUIRK_FLOW;
    tcp->other = 6;
    tcp->ttl = packet[8];
    tcp->quirks = quirks_of_ipv4(packet);
    return 0;
}

static inline unsigned ipv6(const uint8_t *packet, size_t size, limit_observation *seen, tcp_part *tcp)
{
    if (size < 40)
        return refused(TERMREAD_REFUSED_TOO_SHORT);
    if (packet[6] != 6)
        return refused(TERMREAD_REFUSED_PROTOCOL);
    size_t end = 40 + (size_t)high16(packet + 4);
    end = end < size ? end : size;
    if (end < 60)
        return refused(TERMREAD_REFUSED_TCP_TOO_SHORT);
    seen->version = 6;
    seen->olen = 0;
    seen->tot_hdr = 40;
    seen->tos = (uint8_t)(high16(packet) >> 6 & 0x3f);
    tcp->start = packet + 40;
    tcp->size = end - 40;
    tcp->dropped = TERMREAD_QUIRK_DF | TERMREAD_QUIRK_ID_NONZERO | TERMREAD_QUIRK_ID_ZERO;
    tcp->other = 4;
    tcp->ttl = packet[7];
    tcp->quirks = ((low32(packet) & 0xffff0f00) != 0 ? TERMREAD_QUIRK_FLOW : 0) | ((packet[1] & 0x30) != 0 ? TERMREAD_QUIRK_ECN : 0);
    return 0;
}

static inline unsigned ip_stage(const uint8_t *packet, size_t size, limit_observation *seen, tcp_part *tcp)
{
    if (size < 20)
        return too_short(packet, size);
    if (packet[0] >> 4 == 4)
        return ipv4(packet, size, seen, tcp);
    if (packet[0] >> 4 == 6)
        return ipv6(packet, size, seen, tcp);
    return refused(TERMREAD_REFUSED_VERSION);
}

/* ---- the TCP stage */

/* Neither SYN nor SYN+ACK: one of FIN and RST, with or without ACK, or ACK, is valid. */
static inline unsigned other_flags(unsigned flags)
{
    unsigned masked = flags & 0x17;
    if (masked == 1 || masked == 4 || (masked >= 16 && masked <= 20 && masked != 19))
        return IS_NOTHING;
    return refused(TERMREAD_REFUSED_FLAGS) | flags << 8;
}

/* The quirks of a TCP header, any. */
static uint32_t quirks_of_tcp(const uint8_t *tcp, unsigned flags)
{
    uint32_t quirks = low32(tcp + 4) == 0 ? TERMREAD_QUIRK_SEQ_ZERO : 0;
    if ((flags & 0xc0) != 0)
        quirks |= TERMREAD_QUIRK_ECN;
    if ((flags & 0x08) != 0)
        quirks |= TERMREAD_QUIRK_PUSH;
    if ((flags & 0x20) != 0)
        quirks |= TERMREAD_QUIRK_URG;
    else if (low16(tcp + 18) != 0)
        quirks |= TERMREAD_QUIRK_URG_NONZERO;
    if ((flags & 0x10) != 0)
        return low32(tcp + 8) == 0 ? quirks | TERMREAD_QUIRK_ACK_ZERO : quirks;
    return low32(tcp + 8) != 0 ? quirks | TERMREAD_QUIRK_ACK_NONZERO : quirks;
}

/* What the packet is, and its headers if it is a SYN or SYN+ACK. A SYN without other flags, whose sequence number is not 0 and whose
   acknowledgement and urgent pointer are, shows no quirk of the TCP header. */
static inline unsigned read_headers(const uint8_t *packet, size_t size, limit_observation *seen, tcp_part *tcp)
{
    unsigned refusal = ip_stage(packet, size, seen, tcp);
    if (refusal != 0)
        return refusal;
    const uint8_t *start = tcp->start;
    unsigned flags = start[13];
    unsigned what = IS_SYN;
    if (flags != 2) {
        if ((flags & 0x07) != 2)
            return other_flags(flags);
        what = (flags & 0x10) != 0 ? IS_SYNACK : IS_SYN;
        tcp->quirks |= quirks_of_tcp(start, flags);
    } else if (low32(start + 4) == 0 || low32(start + 8) != 0 || low16(start + 18) != 0)
        tcp->quirks |= quirks_of_tcp(start, flags);
    size_t header = (size_t)(start[12] >> 4) * 4;
    seen->tot_hdr += (uint16_t)header;
    if (header - 20 > tcp->size - 20)
        header = header < 20 ? 20 : tcp->size;
    tcp->end = start + header;
    seen->pclass = tcp->size != header;
    return what;
}

#endif
