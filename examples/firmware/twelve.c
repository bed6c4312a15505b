/* For a head of twelve channels, of which 6 to 11 are the second bank: accepted over inputs 12 to 255 (lane-check --inputs 12-255), and over
   6 to 255 refused with 7, role 5 (branch). */
#include "handler.h"

enum { BOTH_BANKS = 2 * CHANNELS };

unsigned invalid_channel(unsigned channel)
{
    if (channel >= BOTH_BANKS) {
        record(RAISE_FAULT, FAULT, 1);
        return NO_SUCH_CHANNEL;
    }
    record(LIFT_HOOK, HOOKS + 4 * channel, 1);
    return DONE;
}
