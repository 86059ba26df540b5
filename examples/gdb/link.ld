/* Text first, then data and zeros on a page of their own; the stack grows down from RAM's end. */
OUTPUT_ARCH(riscv)
ENTRY(_start)

MEMORY {
    ram (rwx) : ORIGIN = 0x80000000, LENGTH = 16M
}

PHDRS {
    text PT_LOAD FLAGS(5);
    data PT_LOAD FLAGS(6);
}

SECTIONS {
    .text : { *(.text.start) *(.text*) *(.rodata*) } > ram :text
    .data ALIGN(4096) : { *(.data*) *(.sdata*) } > ram :data
    .bss (NOLOAD) : { *(.bss*) *(.sbss*) *(COMMON) } > ram :data
    stack_top = ORIGIN(ram) + LENGTH(ram);
    /DISCARD/ : { *(.comment) *(.eh_frame) *(.riscv.attributes) }
}
