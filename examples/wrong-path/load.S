# A branch that needs a load, and a load on the path that the branch doesn't take. Ends as passed.
    .option norvc
    .option norelax
    .globl _start
_start:
    auipc x8, 0             # 80000000: x8 becomes 80000000
    lw x9, 64(x8)           # 80000004: 0, from 80000040
    beq x9, x0, taken       # 80000008: taken, once x9 is there
    lw x10, 128(x8)         # 8000000c: never committed
taken:
    lw x11, 64(x8)          # 80000010: the same word again
    lui x6, 0x100           # 80000014: the finisher
    lui x7, 0x5             # 80000018
    addi x7, x7, 0x555      # 8000001c: 5555
    sw x7, 0(x6)            # 80000020: the run passes
