# Tells the finisher to end the run: one segment, with no bytes beyond those of the file.
    .globl _start
_start:
    lui t0, 0x100
    lui t1, 0x5
    addi t1, t1, 0x555
    sw t1, 0(t0)
