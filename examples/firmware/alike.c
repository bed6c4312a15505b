/* Treats all invalid channels alike: the fault doesn't say which channel it was. */
#include "handler.h"

unsigned invalid_channel(unsigned channel)
{
    (void)channel;
    record(RAISE_FAULT, FAULT, 1);
    return NO_SUCH_CHANNEL;
}
