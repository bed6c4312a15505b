/* Reports lengths of yarn in fixed point of 32 bits: the upper halves of 64-bit products, which are a MULHU, a MULHSU and a MULH. */
#include "handler.h"

unsigned invalid_channel(unsigned channel)
{
    /* Volatile, so that GCC does not compute the products itself. The fractions share and stretch are 3/4 and -3/8. */
    volatile unsigned length = 4000000000u, share = 0xC0000000;
    volatile int stretch = -0x60000000, slack = -1000000;
    (void)channel;
    record(RAISE_FAULT, FAULT, (unsigned long long)length * share >> 32);
    record(RAISE_FAULT, FAULT + 4, (long long)stretch * length >> 32);
    record(RAISE_FAULT, FAULT + 8, (long long)stretch * slack >> 32);
    return NO_SUCH_CHANNEL;
}
