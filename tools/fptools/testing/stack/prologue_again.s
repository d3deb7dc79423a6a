# A jump goes to the function's first word, past its prologue again.
        .section .text.main0, "ax"
        .globl  main0
main0:  addi    sp, sp, -16
        sw      ra, 12(sp)
        call    f
        j       main0

f:      addi    sp, sp, -32
        sw      a0, 0(sp)
        addi    sp, sp, 32
        ret
