# A trap handler goes on behind an ECALL, and gives back all registers.
        .section .text.main0, "ax"
        .globl  main0
main0:  la      t1, handler
        csrw    mtvec, t1
loop:   addi    sp, sp, -16
        sw      ra, 12(sp)
        mv      s0, sp
        call    f
        mv      sp, s0
        lw      ra, 12(sp)
        addi    sp, sp, 16
        j       loop

f:      addi    sp, sp, -32
        sw      s0, 28(sp)
        ecall
        lw      s0, 28(sp)
        addi    sp, sp, 32
        ret

handler:
        addi    sp, sp, -16
        sw      t0, 0(sp)
        csrr    t0, mepc
        addi    t0, t0, 4
        csrw    mepc, t0
        lw      t0, 0(sp)
        addi    sp, sp, 16
        mret
