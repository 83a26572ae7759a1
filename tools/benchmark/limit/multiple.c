/* The window as a multiple of an MSS or MTU: the divisors behind the first, in a file of its own, so that search.c does not carry what only
   they need. */
#include "multiple.h"

static inline uint32_t with(uint32_t mss, uint32_t more)
{
    return mss + more > 65535 ? 65535 : mss + more;
}

static inline uint32_t of_peer(uint32_t window, uint32_t peer)
{
    if (peer != 0 && window % peer == 0)
        return limit_times(OF_MSS, window / peer);
    if (peer > 12 && window % (peer - 12) == 0)
        return limit_times(OF_MSS, window / (peer - 12));
    return NO_MULTIPLE;
}

static inline uint32_t of_mtu(uint32_t window, uint32_t mss, uint32_t headers, uint32_t peer, int v6)
{
    uint32_t mtu = with(mss, 40);
    if (window % mtu == 0)
        return limit_times(OF_MTU, window / mtu);
    mtu = with(mss, headers);
    if (window % mtu == 0)
        return limit_times(OF_MTU, window / mtu);
    mtu = with(mss, 60);
    if (v6 && window % mtu == 0)
        return limit_times(OF_MTU, window / mtu);
    if (window % 1500 == 0)
        return limit_times(OF_MTU, window / 1500);
    return of_peer(window, peer);
}

uint32_t limit_other_multiple(uint32_t window, uint32_t mss, uint32_t headers, uint32_t peer, int stamped, int v6)
{
    if (stamped && window % (mss - 12) == 0)
        return limit_times(OF_MSS, window / (mss - 12));
    if (window % 1460 == 0)
        return limit_times(OF_MSS, window / 1460);
    if (window % 1448 == 0)
        return limit_times(OF_MSS, window / 1448);
    if (v6 && window % 1440 == 0)
        return limit_times(OF_MSS, window / 1440);
    if (v6 && window % 1428 == 0)
        return limit_times(OF_MSS, window / 1428);
    return of_mtu(window, mss, headers, peer, v6);
}
