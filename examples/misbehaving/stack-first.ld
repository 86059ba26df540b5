/* The stack first, in the front 28 KiB of RAM, and text, data and zeros behind it: a stack that is too deep leaves RAM
   before it meets them. */
OUTPUT_ARCH(riscv)
ENTRY(_start)

MEMORY {
    ram (rwx) : ORIGIN = 0x80007000, LENGTH = 36K
}

PHDRS {
    text PT_LOAD FLAGS(5);
    data PT_LOAD FLAGS(6);
}

SECTIONS {
    .text : { *(.text.start) *(.text*) *(.rodata*) } > ram :text
    .data ALIGN(4096) : { *(.data*) *(.sdata*) } > ram :data
    .bss : { *(.bss*) *(.sbss*) *(COMMON) } > ram :data
    stack_top = ORIGIN(ram);
    /DISCARD/ : { *(.comment) *(.eh_frame) *(.riscv.attributes) }
}
