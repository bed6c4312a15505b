/* Wrong: GCC makes `channel <= 6` of the choice of a place, and goes another way for 6 than for 7. Refused with 7, role 5 (branch). */
#include "handler.h"

static unsigned faults[CHANNELS + 1];

unsigned invalid_channel(unsigned channel)
{
    faults[channel < CHANNELS ? channel : CHANNELS]++;
    record(RAISE_FAULT, FAULT, 1);
    return NO_SUCH_CHANNEL;
}
