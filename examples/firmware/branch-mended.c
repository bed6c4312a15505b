/* Mended branch.c: all invalid channels share one place, and it is not computed from the channel. */
#include "handler.h"

static unsigned faults[CHANNELS + 1];

unsigned invalid_channel(unsigned channel)
{
    (void)channel;
    faults[CHANNELS]++;
    record(RAISE_FAULT, FAULT, 1);
    return NO_SUCH_CHANNEL;
}
