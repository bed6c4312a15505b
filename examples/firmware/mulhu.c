/* The upper half of a 64-bit product is a MULHU. (A division by a constant can become one too.) */
#include "handler.h"

volatile unsigned tension;

/* The tension by 3/16, in fixed point of 32 bits. */
unsigned invalid_channel(unsigned channel)
{
    (void)channel;
    record(RAISE_FAULT, FAULT, tension * 0x30000000ull >> 32);
    return NO_SUCH_CHANNEL;
}
