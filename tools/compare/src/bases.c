/* Base packets and base option strings. */
#include "families.h"

#include <string.h>

static const struct {
    uint8_t size, bytes[40];
} strings[STRINGS] = {
    {20, {2, 4, 5, 0xb4, 4, 2, 8, 10, 0, 1, 2, 3, 0, 0, 0, 0, 1, 3, 3, 7}},      /* Linux */
    {12, {2, 4, 5, 0xb4, 1, 3, 3, 8, 1, 1, 4, 2}},                               /* Windows */
    {24, {2, 4, 5, 0xb4, 1, 3, 3, 6, 1, 1, 8, 10, 0, 0, 0, 0, 0, 0, 0, 9, 4, 2, 0, 0}}, /* macOS, own timestamp 0, peer's not */
    {4, {2, 4, 2, 0x18}},
    {16, {1, 1, 8, 10, 0, 0, 1, 0, 0, 0, 0, 0, 0, 5, 0, 0}},                     /* trailing bytes after the end */
    {20, {5, 10, 1, 2, 3, 4, 5, 6, 7, 8, 3, 3, 15, 253, 4, 1, 2, 2, 4, 1}},      /* SACK, scale 15, unknown, MSS cut */
};

size_t base_string(int i, uint8_t *s) {
    memcpy(s, strings[i].bytes, strings[i].size);
    return strings[i].size;
}

static size_t tcp(uint8_t *t, int i, uint8_t flags, unsigned window, size_t payload) {
    size_t n = base_string(i, t + 20);
    memset(t, 0, 20);
    t[0] = 0x9c, t[1] = 0x40, t[3] = 80, t[7] = 1, t[11] = flags & 16 ? 9 : 0;
    t[12] = (uint8_t)((5 + n / 4) << 4), t[13] = flags;
    t[14] = (uint8_t)(window >> 8), t[15] = (uint8_t)window;
    memset(t + 20 + n, 'x', payload);
    return 20 + n + payload;
}

static size_t v4(uint8_t *p, size_t options, int i, uint8_t flags, unsigned window, size_t payload) {
    size_t n = 20 + options;
    memset(p, 0, n);
    p[0] = (uint8_t)(0x40 | n / 4), p[6] = 0x40, p[8] = 64, p[9] = 6, p[12] = 10, p[16] = 10;
    n += tcp(p + n, i, flags, window, payload);
    p[3] = (uint8_t)n;
    return n;
}

static size_t v6(uint8_t *p, int i, uint8_t flags, unsigned window, size_t payload) {
    size_t n = tcp(p + 40, i, flags, window, payload);
    memset(p, 0, 40);
    p[0] = 0x60, p[3] = 1, p[5] = (uint8_t)n, p[6] = 6, p[7] = 128, p[8] = 0xfe, p[24] = 0xfe;
    return 40 + n;
}

size_t base_packet(int i, uint8_t *p) {
    switch (i) {
    case 0: return v4(p, 0, 0, 2, 29200, 0);
    case 1: return v4(p, 0, 1, 18, 8192, 0);
    case 2: return v4(p, 8, 2, 2, 65535, 0);
    case 3: return v4(p, 0, 3, 2, 5360, 5);
    case 4: return v4(p, 0, 4, 2, 14480, 0);
    case 5: return v4(p, 0, 5, 18, 16384, 3);
    case 6: return v6(p, 0, 2, 28800, 0);
    case 7: return v6(p, 1, 18, 64240, 0);
    case 8: return v6(p, 2, 2, 65535, 4);
    case 9: return v6(p, 4, 18, 14280, 0);
    case 10: return v4(p, 40, 3, 18, 4288, 0);
    default: return v6(p, 5, 2, 1500, 0);
    }
}
