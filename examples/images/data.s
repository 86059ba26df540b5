# Text, data and memory that is zero at the start: two segments, the second longer in memory than in the file.
    .globl _start
_start:
    la a0, letters
    lbu a1, 0(a0)
    la a2, counter
    sw a1, 0(a2)
    ret

    .data
letters:
    .ascii "Hi\n"

    .bss
    .balign 4
counter:
    .skip 12
