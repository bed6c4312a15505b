/* A handler for a jacquard controller with six channels. The run enters at handle, with the channel byte in a0. */
#include "handler.h"

volatile struct event events[32];
volatile unsigned event_count;

void record(unsigned operation, unsigned offset, unsigned value)
{
    unsigned index = event_count;
    volatile struct event *event = &events[index];
    event->operation = operation;
    event->offset = offset;
    event->value = value;
    event_count = index + 1;
}

unsigned handle(unsigned channel)
{
    if (channel >= CHANNELS)
        return invalid_channel(channel);
    record(LIFT_HOOK, HOOKS + 4 * channel, 1);
    return DONE;
}
