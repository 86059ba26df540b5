/* Text first, then data and zeros on pages of their own, then a stack of at most 32 KiB, which grows down to them. */
OUTPUT_ARCH(riscv)
ENTRY(_start)

MEMORY {
    ram (rwx) : ORIGIN = 0x80000000, LENGTH = 64K
}

PHDRS {
    text PT_LOAD FLAGS(5);
    data PT_LOAD FLAGS(6);
}

SECTIONS {
    .text : { *(.text.start) *(.text*) *(.rodata*) } > ram :text
    .data ALIGN(4096) : { *(.data*) *(.sdata*) } > ram :data
    .bss : { *(.bss*) *(.sbss*) *(COMMON) } > ram :data
    stack_top = ORIGIN(ram) + 32K;
    /DISCARD/ : { *(.comment) *(.eh_frame) *(.riscv.attributes) }
}
