# The address of a store is the sum of an index and a number, where no section is.
        .section .text.main0, "ax"
        .globl  main0
main0:  addi    sp, sp, -32
        li      t0, 0x20000700
        lui     t1, 0x40000
        lw      t1, 0(t1)
        andi    t1, t1, 0xfc
        add     t0, t0, t1
        sw      zero, 0(t0)
        addi    sp, sp, 32
        j       main0
