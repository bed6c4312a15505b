/* A C library as it is installed: picolibc's snprintf and strlen. */
#include <stdio.h>
#include <string.h>

#include "handler.h"

enum { HEAD = 7 };

unsigned invalid_channel(unsigned channel)
{
    char text[32];
    (void)channel;
    snprintf(text, sizeof text, "head %d: no such channel", HEAD);
    record(RAISE_FAULT, FAULT, strlen(text));
    record(RAISE_FAULT, FAULT + 4, text[5]);
    return NO_SUCH_CHANNEL;
}
