/* What the handler and the answers to invalid channels share. */
#ifndef HANDLER_H
#define HANDLER_H

enum { CHANNELS = 6 };
enum operation { LIFT_HOOK = 1, RAISE_FAULT = 2 };
enum offset { HOOKS = 0x00, FAULT = 0x40 };
enum answer { DONE = 0, NO_SUCH_CHANNEL = 1 };

struct event {
    unsigned operation, offset, value;
};

/* The run reads these when handle returns. Memory is zero at first. Volatile, so that each event is stored before its
   count, and the count once as a whole word: an SW at event_count is what counts an event. */
extern volatile struct event events[32];
extern volatile unsigned event_count;

/* Adds an event: an operation on a register of the controller. */
void record(unsigned operation, unsigned offset, unsigned value);

/* The answer to a channel from 6 to 255. */
unsigned invalid_channel(unsigned channel);

#endif
