# A store far below sp: 100 bytes, where sp goes down by 16.
        .section .text.main0, "ax"
        .globl  main0
main0:  addi    sp, sp, -16
        sw      zero, -84(sp)
        addi    sp, sp, 16
        j       main0
