/* Packets and lists for `same`. */
#include "made.h"

#include <string.h>

static uint64_t state = 0x9e3779b97f4a7c15;

uint32_t below(uint32_t bound)
{
    state ^= state << 13;
    state ^= state >> 7;
    state ^= state << 17;
    return (uint32_t)((state >> 32) * bound >> 32);
}

static uint8_t any_byte(void)
{
    return (uint8_t)below(256);
}

static void set16(uint8_t *at, uint32_t number)
{
    at[0] = (uint8_t)(number >> 8);
    at[1] = (uint8_t)number;
}

uint16_t made_peer(void)
{
    static const uint16_t usual[3] = {0, 536, 1460};
    uint32_t which = below(5);
    return which < 3 ? usual[which] : which == 3 ? (uint16_t)(10 + below(6)) : (uint16_t)below(65536);
}

/* ---- packets */

/* Usual, about the least that says something of a window, near the most there is, or any. */
static uint32_t made_mss(void)
{
    switch (below(6)) {
    case 0:
        return 97 + below(6);
    case 1:
        return 65535 - below(110);
    case 2:
        return 1460;
    default:
        return 60 + below(1500);
    }
}

/* One option, mostly sound; its size, of which no more than the room is written. */
static size_t made_option(uint8_t *at, size_t room)
{
    static const uint8_t kinds[10] = {1, 1, 1, 2, 2, 3, 4, 8, 8, 5};
    static const uint8_t sizes[9] = {0, 1, 4, 3, 2, 10, 0, 0, 10};
    uint8_t bytes[12] = {0};
    uint32_t chance = below(24);
    bytes[0] = chance == 0 ? any_byte() : chance == 1 ? 0 : kinds[below(10)];
    bytes[1] = bytes[0] < 9 ? sizes[bytes[0]] : (uint8_t)below(12);
    if (below(16) == 0)
        bytes[1] = (uint8_t)below(14);
    for (size_t i = 2; i < 12; i++)
        bytes[i] = below(3) == 0 ? any_byte() : 0;
    if (bytes[0] == 2)
        set16(bytes + 2, made_mss());
    size_t size = bytes[0] < 2 ? 1 : bytes[1] < 2 ? 2 : bytes[1] < 12 ? bytes[1] : 12;
    memcpy(at, bytes, size < room ? size : room);
    return size < room ? size : room;
}

static void made_options(uint8_t *at, size_t room)
{
    size_t filled = 0;
    if (below(12) == 0)
        for (size_t i = 0; i < room; i++)
            at[i] = any_byte();
    else
        while (filled < room)
            filled += made_option(at + filled, room - filled);
}

static void made_tcp(uint8_t *tcp, size_t words)
{
    static const uint8_t flags[8] = {2, 2, 2, 18, 18, 0xc2, 0x12, 0x2a};
    for (size_t i = 0; i < 20; i++)
        tcp[i] = any_byte();
    if (below(4) == 0)
        memset(tcp + 4, 0, 4);
    if (below(3) != 0)
        memset(tcp + 8, 0, 4);
    if (below(3) != 0)
        memset(tcp + 18, 0, 2);
    tcp[12] = (uint8_t)(words << 4 | below(16));
    if (below(12) == 0)
        tcp[12] = any_byte();
    tcp[13] = below(10) == 0 ? any_byte() : flags[below(8)];
    if (below(3) != 0)
        set16(tcp + 14, (1 + below(44)) * (1428 + 4 * below(20)) % 65536);
    made_options(tcp + 20, 4 * words - 20);
}

static size_t made_ipv4(uint8_t *packet)
{
    size_t ihl = below(4) == 0 ? 6 + below(10) : 5;
    memset(packet, 0, 60);
    packet[0] = (uint8_t)(0x40 | ihl);
    packet[1] = below(3) == 0 ? any_byte() : 0;
    set16(packet + 4, below(2) == 0 ? below(65536) : 0);
    packet[6] = (uint8_t)(below(4) << 6);
    packet[8] = below(3) == 0 ? any_byte() : (uint8_t)(20 + below(50));
    packet[9] = 6;
    return 4 * ihl;
}

static size_t made_ipv6(uint8_t *packet)
{
    memset(packet, 0, 40);
    packet[0] = 0x60;
    if (below(3) == 0)
        packet[1] = any_byte();
    if (below(3) == 0)
        set16(packet + 2, below(65536));
    packet[0] |= (uint8_t)(below(3) == 0 ? below(16) : 0);
    packet[6] = 6;
    packet[7] = below(3) == 0 ? any_byte() : (uint8_t)(20 + below(50));
    return 40;
}

size_t made_packet(uint8_t *packet)
{
    int v4 = below(5) < 3;
    size_t start = v4 ? made_ipv4(packet) : made_ipv6(packet);
    size_t words = 5 + below(11);
    size_t payload = below(4) == 0 ? below(20) : 0;
    made_tcp(packet + start, words);
    for (size_t i = 0; i < payload; i++)
        packet[start + 4 * words + i] = any_byte();
    size_t size = start + 4 * words + payload;
    size_t said = below(12) == 0 ? size + below(40) - 20 : size;
    set16(packet + (v4 ? 2 : 4), (uint32_t)(v4 ? said : said - 40));
    return size;
}

size_t changed(uint8_t *bytes, size_t size, size_t most)
{
    uint32_t how = below(16);
    if (how == 0)
        return below((uint32_t)size + 1);
    if (how == 1 && size + 24 <= most) {
        size_t more = 1 + below(24);
        for (size_t i = 0; i < more; i++)
            bytes[size + i] = any_byte();
        return size + more;
    }
    if (how == 2 && size > 60)
        made_options(bytes + (bytes[0] >> 4 == 6 ? 60 : 40), size - 60);
    for (uint32_t times = 1 + (how & 1); size != 0 && times != 0; times--) {
        uint32_t at = below((uint32_t)size);
        bytes[at] = below(2) == 0 ? any_byte() : (uint8_t)(bytes[at] ^ 1u << below(8));
    }
    return size;
}
