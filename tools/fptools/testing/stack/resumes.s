# A trap handler goes on in the code that trapped, and doesn't give its stack back.
        .section .text.main0, "ax"
        .globl  main0
main0:  la      t1, handler
        csrw    mtvec, t1
loop:   addi    sp, sp, -16
        lw      t0, 1(zero)
        addi    sp, sp, 16
        j       loop

handler:
        j       loop
