# A called function changes s0, of which sp comes.
        .section .text.main0, "ax"
        .globl  main0
main0:  addi    sp, sp, -16
        mv      s0, sp
        call    f
        mv      sp, s0
        addi    sp, sp, 16
        j       main0

f:      addi    s0, s0, -32
        ret
