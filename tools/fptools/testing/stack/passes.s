# A called function stores by a pointer from its caller's frame, where no section is.
        .section .text.main0, "ax"
        .globl  main0
main0:  addi    sp, sp, -16
        li      t0, 0x20000700
        sw      t0, 4(sp)
        lw      a0, 4(sp)
        call    clear
        addi    sp, sp, 16
        j       main0
clear:  li      t1, 64
next:   sw      zero, 0(a0)
        addi    a0, a0, 4
        addi    t1, t1, -1
        bnez    t1, next
        ret
