# Data at a fixed address, which no section has, where the stack gets.
        .section .text.main0, "ax"
        .globl  main0
main0:  li      t0, 0x200007f0
        sw      zero, 0(t0)
        addi    sp, sp, -32
        sw      ra, 12(sp)
        addi    sp, sp, 32
        j       main0
