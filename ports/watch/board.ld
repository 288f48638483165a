/* One of qemu's boards, which has its code memory at `flash` and its RAM at `ram` (ports/common). Only as much of either is given as the watch has, so that the
 * linker refuses an image that does not fit. */
ENTRY(reset)
MEMORY {
    FLASH (rx) : ORIGIN = flash, LENGTH = 512K
    RAM (rw) : ORIGIN = ram, LENGTH = 64K
}
SECTIONS {
    .text : { KEEP(*(.vectors)) *(.text .text.*) } > FLASH
    .rodata : { *(.rodata .rodata.*) } > FLASH
    .ARM.exidx : { *(.ARM.exidx*) } > FLASH
    .data : { data_start = .; *(.data .data.*) . = ALIGN(4); data_end = .; } > RAM AT > FLASH
    data_load = LOADADDR(.data);
    .bss : { bss_start = .; *(.bss .bss.* COMMON) . = ALIGN(8); bss_end = .; } > RAM
    stack_floor = .;
    stack_top = ORIGIN(RAM) + LENGTH(RAM);
    ASSERT(stack_top - stack_floor >= 24K, "less than 24 KiB of RAM are left for the stack, of which the planner takes most")
    /DISCARD/ : { *(.comment) }
}
