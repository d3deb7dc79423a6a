# The loop of sum.s from one wait to the next, as a section from 0x08 to 0x40 that `bound` takes: a jump in place of the wait,
# which has its lag, then the loop's end and its words up to the wait. docs/BOUNDS.md derives why that is the period's bound.
        nop
        nop
        j    back               # 0x08: the wait
back:   j    loop               # 0x0c: the loop's end
loop:   lw   x5, 0(x2)
        sw   x5, 0(x1)
        addi x3, x1, 0
        addi x4, x0, 8
        addi x6, x0, 0
sum:    lw   x7, 0(x3)          # 0x24: eight rounds
        add  x6, x6, x7
        addi x3, x3, 4
        addi x4, x4, -1
        bne  x4, x0, sum        # 0x34
        sw   x6, 0(x2)
        addi x10, x10, 2000     # 0x3c: the last word before the next wait
