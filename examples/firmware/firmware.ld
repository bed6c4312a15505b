/* The image from 80000000 on, code before constants, since a constant of odd length would put the code after it at an odd address. What is
   written lies past it, since a store below the image's end is refused (11). */
ENTRY(handle)

MEMORY {
    image   (rx) : ORIGIN = 0x80000000, LENGTH = 32K
    written (rw) : ORIGIN = 0x80010000, LENGTH = 1M
}

SECTIONS {
    .text : { *(.text .text.*) *(.rodata .rodata.* .srodata .srodata.*) } > image
    .data : { *(.data .data.* .sdata .sdata.*) } > written
    .bss (NOLOAD) : { *(.bss .bss.* .sbss .sbss.* COMMON) } > written
    ASSERT(SIZEOF(.data) == 0, "written data must begin as zero: nothing copies it out of the image, as start.S does (start.ld)")
}
