/* Start-up code, the entry of the run: it brings written data to where it is used, sets gp and tp, and goes on in handle, which finds the
   channel in a0 and returns to where the run stops. Nothing may go through gp before it is set, so its address is not relaxed. Memory past
   the image is zero, so .bss is left as it is; on a controller, clear it as well. */
    .file "start.S"
    .section .text.start, "ax"
    .globl _start
    .type _start, @function
_start:
    .option push
    .option norelax
    la gp, __global_pointer$
    .option pop
    la tp, thread_data
    la t0, copied_from
    la t1, copied_to
    la t2, copied_end
.Lnext:
    bgeu t1, t2, .Lcopied
    lw t3, 0(t0)
    sw t3, 0(t1)
    addi t0, t0, 4
    addi t1, t1, 4
    j .Lnext
.Lcopied:
    tail handle
    .size _start, . - _start
