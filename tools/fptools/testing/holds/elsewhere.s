# Called functions that don't go back to their call: one returns by another address, one keeps x1 in a frame as it should.
        .globl start0, work_begin, work_end, other, astray, kept, leaf
        .section .start.t0, "ax"
start0: li      sp, 0x20000800
work_begin:
        jal     ra, astray
other:  jal     ra, kept
work_end:
        j       work_begin
        .type   astray, @function
astray: la      ra, other
        ret
        .size   astray, . - astray
        .type   kept, @function
kept:   addi    sp, sp, -16
        sw      ra, 12(sp)
        jal     ra, leaf
        lw      ra, 12(sp)
        addi    sp, sp, 16
        ret
        .size   kept, . - kept
        .type   leaf, @function
leaf:   nop
        ret
        .size   leaf, . - leaf
