/* Mended count.c: each event is counted by a store of its own. */
#include "handler.h"

unsigned invalid_channel(unsigned channel)
{
    (void)channel;
    record(RAISE_FAULT, FAULT, 1);
    record(RAISE_FAULT, FAULT + 4, 1);
    return NO_SUCH_CHANNEL;
}
