/* Wrong for lane-run: waiting takes more steps than 2,048 trace entries hold. Refused with 14. */
#include "handler.h"

enum { TURNS = 1000 };
static volatile unsigned waited;

unsigned invalid_channel(unsigned channel)
{
    (void)channel;
    for (unsigned k = 0; k < TURNS; k++)
        waited = k;
    record(RAISE_FAULT, FAULT, 1);
    return NO_SUCH_CHANNEL;
}
