/* As firmware.ld, for firmware with written data that does not begin as zero: it runs past the image, and lies in the image until start.S
   copies it. The entry is the start-up code: lane-check --startup. */
ENTRY(_start)

MEMORY {
    image   (rx) : ORIGIN = 0x80000000, LENGTH = 32K
    written (rw) : ORIGIN = 0x80010000, LENGTH = 1M
}

SECTIONS {
    .text : { *(.text .text.*) *(.rodata .rodata.* .srodata .srodata.*) . = ALIGN(16); } > image
    .data : ALIGN(16) { *(.data .data.* .sdata .sdata.*) . = ALIGN(16); } > written AT> image
    .tdata : ALIGN(16) { *(.tdata .tdata.*) . = ALIGN(4); } > written AT> image
    .tbss (NOLOAD) : { *(.tbss .tbss.* .tcommon) } > written
    .bss (NOLOAD) : { . += SIZEOF(.tbss); *(.bss .bss.* .sbss .sbss.* COMMON) } > written

    copied_from = LOADADDR(.data);
    copied_to = ADDR(.data);
    copied_end = ADDR(.tdata) + SIZEOF(.tdata);
    thread_data = ADDR(.tdata);
    PROVIDE(__global_pointer$ = ADDR(.data) + 0x800);
    ASSERT(LOADADDR(.tdata) - LOADADDR(.data) == ADDR(.tdata) - ADDR(.data), "start.S copies .data and .tdata as one")
}
