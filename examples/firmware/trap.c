/* Wrong: GCC makes an EBREAK of a trap (and of a division by the constant 0). Refused with 9. */
#include "handler.h"

unsigned invalid_channel(unsigned channel)
{
    (void)channel;
    __builtin_trap();
}
