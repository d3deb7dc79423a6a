# A trap handler with a stack that traps itself.
        .section .text.main0, "ax"
        .globl  main0
main0:  la      t1, handler
        csrw    mtvec, t1
        ecall
stays:  j       stays

handler:
        addi    sp, sp, -16
        sw      ra, 0(sp)
        ecall
        j       handler
