# A return to another address than that of the call: the loop lowers sp in each round.
        .section .text.main0, "ax"
        .globl  main0
main0:  call    f
        addi    sp, sp, 16
        j       main0

f:      addi    sp, sp, -16
        addi    ra, ra, 4
        ret
