# Where the image begins: a stack, then main, then the finisher.
# Without this the symbols name a temporary file.
    .file "start.S"
    .section .text.start
    .globl _start
_start:
    la sp, stack_top
    call main
    call finish
