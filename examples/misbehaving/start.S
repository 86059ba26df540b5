# Where the images begin: a stack, a handler with a stack of its own, then main, then the finisher.
    .section .text.start
    .globl _start
_start:
    la sp, stack_top
    la t0, trap_stack_top
    csrw mscratch, t0
    la t0, trap
    csrw mtvec, t0
    call main
    j finish_with

# A trap: the program's stack may be what went wrong.
    .align 2
    .globl trap
trap:
    csrrw sp, mscratch, sp
    j on_trap

# Ends the run by what main returned: passed, or failed with a code.
finish_with:
    lui t0, 0x100
    li t1, 0x5555
    beqz a0, 1f
    slli t1, a0, 16
    li t2, 0x3333
    or t1, t1, t2
1:  sw t1, 0(t0)
    j 1b

    .section .bss
    .align 4
    .skip 256
trap_stack_top:
