/* Mended trap.c: it records a fault and returns. */
#include "handler.h"

unsigned invalid_channel(unsigned channel)
{
    (void)channel;
    record(RAISE_FAULT, FAULT, 1);
    return NO_SUCH_CHANNEL;
}
