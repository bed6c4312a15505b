/* Written data that does not begin as zero: start.S copies it out of the image before it calls the handler. Accepted from _start, with
   --startup; without it an error, since from handle on the run would find zeros. */
#include "handler.h"

static volatile unsigned severity = 3;               /* .data, reached through gp */
static _Thread_local volatile unsigned faults = 40;  /* .tdata, reached through tp */

unsigned invalid_channel(unsigned channel)
{
    (void)channel;
    record(RAISE_FAULT, FAULT, severity);
    record(RAISE_FAULT, FAULT + 4, ++faults);
    return NO_SUCH_CHANNEL;
}
