/* Text alone, from the base of RAM. */
OUTPUT_ARCH(riscv)
ENTRY(_start)

PHDRS {
    text PT_LOAD FLAGS(5);
}

SECTIONS {
    .text 0x80000000 : { *(.text*) } :text
    /DISCARD/ : { *(.comment) *(.riscv.attributes) }
}
