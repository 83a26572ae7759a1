/* same BUNDLE: whether the C limit and the port give the same, on the bundle's list and packets, on changed ones and on made-up ones. */
#include <stdio.h>
#include <stdlib.h>
#include <string.h>

#include "limit.h"
#include "made.h"
#include "witness.h"

enum {
    MOST_BUNDLE = 65535,
    CHANGES = 200,        /* of each packet of the bundle, at least */
    PACKETS = 250000,
    LISTS_OF_BYTE = 6,    /* changes of each byte of the list */
    MADE_LISTS = 120000,
    PACKETS_OF_LIST = 4
};

witness_packet_read counted_observe(const uint8_t *packet, size_t size, uint16_t peer);
uint8_t counted_read(const uint8_t *packet, size_t size, uint16_t peer);

typedef struct {
    const uint8_t *bytes;
    size_t size;
} part;

static uint8_t bundle[MOST_BUNDLE];
static part list;
static part packets[MOST_BUNDLE / 4];
static size_t packet_count;

/* What was compared, and the smallest thing that was answered differently. */
static size_t compared_packets, compared_lists;
static struct {
    size_t size;
    const char *what;
    uint16_t peer;
    uint8_t bytes[MOST_LIST];
    uint8_t limit[sizeof(witness_observation)];
    uint8_t port[sizeof(witness_observation)];
    size_t given;
} smallest;

static void compare(const char *what, part of, uint16_t peer, const void *limit, const void *port, size_t given)
{
    if (memcmp(limit, port, given) == 0 || (smallest.what != NULL && smallest.size <= of.size))
        return;
    smallest.what = what;
    smallest.size = of.size;
    smallest.peer = peer;
    smallest.given = given;
    memcpy(smallest.bytes, of.bytes, of.size);
    memcpy(smallest.limit, limit, given);
    memcpy(smallest.port, port, given);
}

/* The observation of limit_read as the struct of the port's, all of whose bytes up to its last field are fields. */
static witness_observation plain(const limit_observation *seen)
{
    witness_observation o;
    memset(&o, 0, sizeof o);
    o.count = seen->count;
    o.quirks = seen->quirks;
    o.mss = seen->mss;
    o.wsize = seen->wsize;
    o.peer_mss = seen->peer_mss;
    o.tot_hdr = seen->tot_hdr;
    o.version = seen->version;
    o.ttl_form = seen->ttl.form;
    o.ttl = seen->ttl.byte;
    o.hops = seen->ttl.hops;
    o.olen = seen->olen;
    o.tos = seen->tos;
    o.wscale = seen->scale[1];
    o.pclass = seen->pclass;
    o.has_mss = seen->has_mss;
    o.has_wscale = seen->scale[0];
    o.has_peer_mss = seen->peer_mss != 0;
    memcpy(o.kinds, seen->kinds, 40);
    memcpy(o.bytes, seen->bytes, 40);
    return o;
}

static void same_reading(part packet, uint16_t peer)
{
    limit_observation seen;
    memset(&seen, 0xa5, sizeof seen);
    uint8_t answer = limit_read(packet.bytes, packet.size, peer, &seen);
    witness_observation limit = plain(&seen);
    witness_packet_read port = counted_observe(packet.bytes, packet.size, peer);
    compare("limit_read's observation", packet, peer, &limit, &port.observation, offsetof(witness_observation, bytes) + 40);
    compare("limit_read's answer", packet, peer, &answer, &port.answer, 1);
    uint8_t read = counted_read(packet.bytes, packet.size, peer);
    compare("limit_read's answer", packet, peer, &answer, &read, 1);
}

/* The answers against a good list. */
static void same_answer(part packet, uint16_t peer, part good)
{
    termread_result limit = limit_answer_checked(packet.bytes, packet.size, peer, good.bytes, good.size);
    termread_result port = termread_answer_checked(packet.bytes, packet.size, peer, good.bytes, good.size);
    compare("limit_answer_checked", packet, peer, &limit, &port, sizeof port);
    compared_packets++;
}

/* A copy that ends where the heap's block does, so that a tool that watches the heap sees every byte read past it. */
static part copied(const uint8_t *bytes, size_t size)
{
    uint8_t *copy = malloc(size == 0 ? 1 : size);
    if (copy == NULL)
        abort();
    memcpy(copy, bytes, size);
    return (part){copy, size};
}

static void dropped(part copy)
{
    free((void *)(uintptr_t)copy.bytes);
}

/* Any list: its check, and the answer of a packet against it unchecked; if it is good, of further packets. */
static void same_list(const uint8_t *bytes, size_t size)
{
    part any = copied(bytes, size);
    termread_result limit = limit_check_list(any.bytes, any.size);
    termread_result port = termread_check_list(any.bytes, any.size);
    compare("limit_check_list", any, 0, &limit, &port, sizeof port);
    compared_lists++;
    part packet = packets[below((uint32_t)packet_count)];
    uint16_t peer = made_peer();
    termread_result answer = limit_answer(packet.bytes, packet.size, peer, any.bytes, any.size);
    termread_result other = termread_answer(packet.bytes, packet.size, peer, any.bytes, any.size);
    compare("limit_answer", any, peer, &answer, &other, sizeof other);
    for (size_t i = 0; i < 2 && port.outcome == TERMREAD_GOOD; i++)
        same_answer(packets[below((uint32_t)packet_count)], made_peer(), any);
    dropped(any);
}

static void changed_packets(void)
{
    uint8_t bytes[MOST_PACKET];
    for (size_t i = 0; i < CHANGES * packet_count || compared_packets < PACKETS; i++) {
        part base = packets[i % packet_count];
        size_t size = below(4) == 0 ? made_packet(bytes) : base.size;
        if (size > MOST_PACKET - 64)
            continue;
        if (size == base.size)
            memcpy(bytes, base.bytes, size);
        if (i >= packet_count)
            size = changed(bytes, size, MOST_PACKET);
        part packet = copied(bytes, size);
        uint16_t peer = i < packet_count ? 0 : made_peer();
        same_reading(packet, peer);
        same_answer(packet, peer, list);
        dropped(packet);
    }
}

static void changed_lists(void)
{
    uint8_t bytes[MOST_LIST];
    for (size_t at = 0; at < list.size; at++)
        for (size_t how = 0; how < LISTS_OF_BYTE; how++) {
            memcpy(bytes, list.bytes, list.size);
            bytes[at] = (uint8_t)(how < 2 ? bytes[at] + 2 * how - 1 : how < 4 ? bytes[at] ^ 1u << below(8) : below(256));
            same_list(bytes, list.size);
        }
    for (size_t size = 0; size < list.size; size++)
        same_list(list.bytes, size);
}

/* Every pair of counts of entries up to 63. */
static void counted_lists(void)
{
    uint8_t bytes[MOST_LIST];
    for (uint32_t i = 0; i < 64 * 64; i++)
        same_list(bytes, counted_list(bytes, (uint8_t)(i & 63), (uint8_t)(i >> 6), 48));
}

/* Lists near a made-up packet, which then is a base of further ones; sound, changed once or twice, and random. */
static void made_lists(void)
{
    uint8_t bytes[MOST_PACKET], near[MOST_LIST];
    limit_observation seen;
    for (size_t i = 0; i < MADE_LISTS; i++) {
        size_t size = made_packet(bytes);
        uint16_t peer = made_peer();
        if (limit_read(bytes, size, peer, &seen) < 3 && below(4) != 0) {
            uint16_t window = made_window(&seen);
            size_t start = bytes[0] >> 4 == 6 ? 40 : 4 * (size_t)(bytes[0] & 15);
            bytes[start + 14] = (uint8_t)(window >> 8);
            bytes[start + 15] = (uint8_t)window;
            limit_read(bytes, size, peer, &seen);
        }
        size_t length = made_list(near, &seen);
        part good = copied(near, length);
        for (size_t j = 0; j < PACKETS_OF_LIST; j++) {
            part packet = copied(bytes, size);
            same_reading(packet, peer);
            same_answer(packet, peer, good);
            dropped(packet);
            size = changed(bytes, size, MOST_PACKET);
        }
        dropped(good);
        same_list(near, length);
        length = changed(near, length, MOST_LIST);
        same_list(near, length);
        for (size_t j = 0; i % 16 == 0 && j < length; j++)
            near[j] = (uint8_t)below(below(2) == 0 ? 256 : 3);
        same_list(near, length);
    }
}

/* ---- the bundle */

static size_t number_at(size_t at)
{
    return (size_t)bundle[at] << 8 | bundle[at + 1];
}

/* The list and the packets of the bundle; 0 if it does not fit. */
static int read_bundle(const char *name)
{
    FILE *file = fopen(name, "rb");
    if (file == NULL)
        return 0;
    size_t size = fread(bundle, 1, sizeof bundle, file);
    fclose(file);
    if (size < 8 || number_at(6) + number_at(4) > size || number_at(4) > MOST_LIST)
        return 0;
    list = (part){bundle + number_at(6), number_at(4)};
    size_t at = number_at(2);
    for (packet_count = 0; packet_count < number_at(0); packet_count++) {
        if (at + 4 > size || at + 4 + number_at(at + 2) > size)
            return 0;
        packets[packet_count] = (part){bundle + at + 4, number_at(at + 2)};
        at += 4 + number_at(at + 2);
    }
    return packet_count != 0 && termread_check_list(list.bytes, list.size).outcome == TERMREAD_GOOD;
}

static void print_bytes(const char *name, const uint8_t *bytes, size_t size)
{
    printf("%s ", name);
    for (size_t i = 0; i < size; i++)
        printf("%02x", bytes[i]);
    printf("\n");
}

int main(int count, char **arguments)
{
    if (count != 2 || !read_bundle(arguments[1])) {
        fprintf(stderr, "same BUNDLE: a bundle with a good list and at least one packet\n");
        return 2;
    }
    changed_packets();
    changed_lists();
    counted_lists();
    made_lists();
    if (smallest.what == NULL) {
        printf("same: %zu packets, %zu lists, no difference\n", compared_packets, compared_lists);
        return 0;
    }
    printf("%s differs, peer %u, on %zu bytes\n", smallest.what, smallest.peer, smallest.size);
    print_bytes("bytes", smallest.bytes, smallest.size);
    print_bytes("limit", smallest.limit, smallest.given);
    print_bytes("port ", smallest.port, smallest.given);
    return 1;
}
