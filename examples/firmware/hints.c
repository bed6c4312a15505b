/* Has hints, instructions that write x0 and so do nothing: that t0, which two of them read, was never set is no mistake. */
#include "handler.h"

/* 0x1000, by a C.LUI into ra, whose own value GCC saves first. */
static unsigned page(void)
{
    unsigned value;
    __asm__ volatile("c.lui ra,1\n\t"
                     "mv %0,ra" : "=r"(value) : : "ra");
    return value;
}

unsigned invalid_channel(unsigned channel)
{
    (void)channel;
    __asm__ volatile("c.li x0,1\n\t"
                     "c.lui x0,1\n\t"
                     "c.slli x0,3\n\t"
                     "c.mv x0,t0\n\t"
                     "c.add x0,t0");
    record(RAISE_FAULT, FAULT, page());
    return NO_SUCH_CHANNEL;
}
