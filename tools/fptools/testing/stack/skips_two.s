# A trap handler skips two words: the second one gives the stack back.
        .section .text.main0, "ax"
        .globl  main0
main0:  la      t1, handler
        csrw    mtvec, t1
loop:   addi    sp, sp, -16
        sw      ra, 12(sp)
        call    f
        lw      ra, 12(sp)
        addi    sp, sp, 16
        j       loop

f:      addi    sp, sp, -32
        sw      s0, 28(sp)
        lw      s0, 28(sp)
        ecall
        addi    sp, sp, 32
        ret

handler:
        addi    sp, sp, -16
        sw      t0, 0(sp)
        csrr    t0, mepc
        addi    t0, t0, 4
        csrw    mepc, t0
        csrr    t0, mepc
        addi    t0, t0, 4
        csrw    mepc, t0
        lw      t0, 0(sp)
        addi    sp, sp, 16
        mret
