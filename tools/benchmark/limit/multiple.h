/* The window as a multiple of an MSS or MTU: the form of a record's window, and 65,536 times its number; or NO_MULTIPLE. */
#ifndef LIMIT_MULTIPLE_H
#define LIMIT_MULTIPLE_H

#include <stdint.h>

enum {
    OF_MSS = 3,
    OF_MTU = 4,
    UNKNOWN = 0xff, /* not looked for yet */
    NO_MULTIPLE = 0xfe,
    LEAST_MSS = 100 /* of a smaller one no window is a multiple */
};

/* A record's multiple is at most 255. */
static inline uint32_t limit_times(uint32_t form, uint32_t multiple)
{
    return multiple < 256 ? form | multiple << 16 : NO_MULTIPLE;
}

/* Of a window that is not 0 and no multiple of its MSS, which is at least LEAST_MSS. peer: 0 if it is not known; stamped: there is a
   timestamps option, and its own timestamp is not 0. */
uint32_t limit_other_multiple(uint32_t window, uint32_t mss, uint32_t headers, uint32_t peer, int stamped, int v6);

#endif
