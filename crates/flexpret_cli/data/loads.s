# T0: a word, a load of the first word, a branch over a word, and a loop that stays.
        addi x5, x0, 1
        lw   x6, 0(x0)
        beq  x0, x0, on
        nop
on:     addi x7, x0, 2
stay:   j    stay
.org 0x40                       # A store into T0's region, for a thread that has no right to.
        lui  x1, 0x20000
        sw   x0, 0(x1)
