# A trap handler that never comes back, while a moment is armed: it expires in the handler.
        .section .text.main0, "ax"
        .globl  main0
main0:  la      t1, handler
        csrw    mtvec, t1
        .insn r 0x0b, 0, 0, t2, x0, x0
        .insn r 0x0b, 1, 0, t3, x0, x0
        addi    t2, t2, 1000
        .insn r 0x0b, 4, 0, x0, t3, t2
        addi    sp, sp, -16
        sw      zero, 0(sp)
        lw      t0, 1(zero)
stays:  j       stays

handler:
        addi    sp, sp, -64
        sw      ra, 0(sp)
safe:   j       safe
