/* Doesn't treat invalid channels alike: it keeps a count for each, so that the address it loads depends on the channel. */
#include "handler.h"

static unsigned char faults[256];

unsigned invalid_channel(unsigned channel)
{
    if (faults[channel] < 255)
        faults[channel]++;
    record(RAISE_FAULT, FAULT, 1);
    return NO_SUCH_CHANNEL;
}
