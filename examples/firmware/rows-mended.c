/* Mended rows.c: it writes 64 bytes. (A caller who lends more rows takes the other as well.) */
#include "handler.h"

enum { KEPT = 64 };
static volatile unsigned char kept[KEPT];

unsigned invalid_channel(unsigned channel)
{
    (void)channel;
    for (unsigned k = 0; k < KEPT; k++)
        kept[k] = FAULT;
    record(RAISE_FAULT, FAULT, 1);
    return NO_SUCH_CHANNEL;
}
