/* Wrong for lane-run: it writes 256 bytes, and of 200 rows stop's four leave 196. Refused with 13. */
#include "handler.h"

enum { KEPT = 256 };
static volatile unsigned char kept[KEPT];

unsigned invalid_channel(unsigned channel)
{
    (void)channel;
    for (unsigned k = 0; k < KEPT; k++)
        kept[k] = FAULT;
    record(RAISE_FAULT, FAULT, 1);
    return NO_SUCH_CHANNEL;
}
