# A trap handler comes back and changes s0, of which sp comes.
        .section .text.main0, "ax"
        .globl  main0
main0:  la      t0, handler
        csrw    mtvec, t0
loop:   addi    sp, sp, -16
        mv      s0, sp
        ecall
        mv      sp, s0
        addi    sp, sp, 16
        j       loop

handler:
        addi    s0, s0, -32
        csrr    t0, mepc
        addi    t0, t0, 4
        csrw    mepc, t0
        mret
