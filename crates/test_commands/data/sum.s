# T0: each 2,000 nanoseconds, keep the word of the port as the first of eight, and show their sum.
        lui  x1, 0x20000        # the eight words
        lui  x2, 0x40000        # the port
        gt   x10
        gth  x11
loop:   lw   x5, 0(x2)          # 0x10: a visit begins
        sw   x5, 0(x1)
        addi x3, x1, 0
        addi x4, x0, 8
        addi x6, x0, 0
sum:    lw   x7, 0(x3)          # 0x24: eight rounds
        add  x6, x6, x7
        addi x3, x3, 4
        addi x4, x4, -1
        bne  x4, x0, sum        # 0x34
        sw   x6, 0(x2)          # 0x38: the last word of a visit
        addi x10, x10, 2000
        wu   x11, x10
        j    loop
# Nothing is carried into x11, so the loop is for runs of up to 4.29 seconds: docs/PROGRAMMING.md has one for longer runs.
