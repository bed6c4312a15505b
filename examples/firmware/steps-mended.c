/* Mended steps.c: it waits 100 turns. (A caller who lends more entries takes the other as well.) */
#include "handler.h"

enum { TURNS = 100 };
static volatile unsigned waited;

unsigned invalid_channel(unsigned channel)
{
    (void)channel;
    for (unsigned k = 0; k < TURNS; k++)
        waited = k;
    record(RAISE_FAULT, FAULT, 1);
    return NO_SUCH_CHANNEL;
}
