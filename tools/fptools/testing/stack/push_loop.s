# A loop goes back to the function's first word with a lower sp.
        .section .text.main0, "ax"
        .globl  main0
main0:  lui     a1, 0x40000
        lw      a0, 0(a1)
        andi    a0, a0, 15
        call    f
        j       main0

f:      addi    sp, sp, -16
        sw      a0, 0(sp)
        addi    a0, a0, -1
        bgez    a0, f
        addi    sp, sp, 16
        ret
