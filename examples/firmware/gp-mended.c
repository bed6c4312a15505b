/* Mended gp.c: __global_pointer$ is undefined, and ld leaves the whole addresses. A linker script may not define it either. */
#include "handler.h"

unsigned invalid_channel(unsigned channel)
{
    (void)channel;
    record(RAISE_FAULT, FAULT, 1);
    return NO_SUCH_CHANNEL;
}
