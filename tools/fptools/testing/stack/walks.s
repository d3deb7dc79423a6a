# A buffer at a fixed address, which no section has: a pointer walks from it up into the stack.
        .section .text.main0, "ax"
        .globl  main0
main0:  addi    sp, sp, -32
        sw      ra, 12(sp)
        li      t0, 0x20000700
        li      t1, 64
next:   sw      zero, 0(t0)
        addi    t0, t0, 4
        addi    t1, t1, -1
        bnez    t1, next
        lw      ra, 12(sp)
        addi    sp, sp, 32
        ret
