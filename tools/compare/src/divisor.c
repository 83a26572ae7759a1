/* The divisor that gives an observation's multiplier: for counting only. */
#include "tally.h"

/* Divisor by divisor, in the order of window_size.rs. */
int first_divisor(const uint8_t *o) {
    unsigned mss = be16_at(o + 6), window = be16_at(o + 8), peer = o[100] ? be16_at(o + 101) : 0;
    int stamp = 0, v6 = o[0] == 6, i;
    unsigned d[12];
    for (i = 0; i < o[14] && i < 40; i++) stamp |= o[15 + i] == 8;
    stamp = stamp && !(o[95] & 1);
    if (!o[5] || mss < 100 || window == 0) return 0;
    d[0] = mss, d[1] = stamp ? mss - 12 : 0, d[2] = 1460, d[3] = 1448, d[4] = v6 ? 1440 : 0, d[5] = v6 ? 1428 : 0;
    d[6] = mss + 40, d[7] = mss + be16_at(o + 10), d[8] = v6 ? mss + 60 : 0, d[9] = 1500;
    d[10] = peer, d[11] = peer > 12 ? peer - 12 : 0;
    for (i = 0; i < 12; i++) {
        if (i >= 6 && i <= 8 && d[i] > 65535) d[i] = 65535;
        if (d[i] && window % d[i] == 0) return i + 1;
    }
    return 0;
}
