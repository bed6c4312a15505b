/* Wrong: it defines __global_pointer$, so ld reaches written data through gp, which nothing sets. Refused with 6, role 3 (load address). */
#include "handler.h"

__asm__(".globl __global_pointer$\n"
        ".set __global_pointer$, 0x80010800");

unsigned invalid_channel(unsigned channel)
{
    (void)channel;
    record(RAISE_FAULT, FAULT, 1);
    return NO_SUCH_CHANNEL;
}
