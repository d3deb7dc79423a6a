# A moment expires at a word that gives the stack back, and the trap handler skips that word.
        .section .text.main0, "ax"
        .globl  main0
main0:  la      t1, handler
        csrw    mtvec, t1
loop:   addi    sp, sp, -16
        sw      ra, 12(sp)
        .insn r 0x0b, 0, 0, t2, x0, x0
        .insn r 0x0b, 1, 0, t3, x0, x0
        .insn r 0x0b, 4, 0, x0, t3, t2
        addi    sp, sp, 16
        j       loop

handler:
        csrr    t0, mepc
        addi    t0, t0, 4
        csrw    mepc, t0
        mret
