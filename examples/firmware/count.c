/* Wrong: one store counts two events, and an SW at event_count counts one. Refused with 12. */
#include "handler.h"

static void put(unsigned index, unsigned offset)
{
    events[index].operation = RAISE_FAULT;
    events[index].offset = offset;
    events[index].value = 1;
}

unsigned invalid_channel(unsigned channel)
{
    (void)channel;
    put(0, FAULT);
    put(1, FAULT + 4);
    event_count = 2;
    return NO_SUCH_CHANNEL;
}
