# Fills a row of four words, goes one place too far, and so overwrites the variable behind the row.
    .globl _start
_start:
    lui     x8, 0x80001         # the row, and behind it, at 0x80001010, the variable
    addi    x5, x0, 99
    sw      x5, 16(x8)          # variable = 99
    addi    x6, x0, 0           # place = 0
    addi    x9, x0, 5           # wrong: the row has four places
fill:
    slli    x7, x6, 2
    add     x7, x8, x7
    sw      x6, 0(x7)           # row[place] = place
    addi    x6, x6, 1
    bne     x6, x9, fill
    lw      x10, 16(x8)
    lui     x11, 0x100          # the finisher
    bne     x10, x5, lost
    lui     x12, 5
    addi    x12, x12, 0x555
    sw      x12, 0(x11)         # pass
lost:
    lui     x12, 0x13
    addi    x12, x12, 0x333
    sw      x12, 0(x11)         # fail with code 1
