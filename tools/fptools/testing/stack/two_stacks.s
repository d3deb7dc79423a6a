# sp is set to another number.
        .section .text.main0, "ax"
        .globl  main0
main0:  addi    sp, sp, -16
        sw      ra, 12(sp)
        li      sp, 0x20000400
        sw      ra, -4(sp)
        addi    sp, sp, -32
        j       main0
