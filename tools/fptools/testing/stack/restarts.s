# A trap handler sets sp again, and goes on in the code that trapped.
        .section .text.main0, "ax"
        .globl  main0
main0:  la      t1, handler
        csrw    mtvec, t1
loop:   addi    sp, sp, -16
        sw      zero, 0(sp)
        lw      t0, 1(zero)
        addi    sp, sp, 16
        j       loop

handler:
        la      sp, stack_top0
        j       loop
