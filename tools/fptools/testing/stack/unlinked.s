# A call by another register than x1.
        .section .text.main0, "ax"
        .globl  main0
main0:  jal     t0, f
        addi    sp, sp, 16
        j       main0

f:      addi    sp, sp, -16
        jr      t0
