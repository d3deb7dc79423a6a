# A function that goes on in the next one, with a stack that isn't given back.
        .section .text.main0, "ax"
        .globl  main0
main0:  call    f
        j       main0

f:      addi    sp, sp, -16
g:      addi    sp, sp, -32
        addi    sp, sp, 32
        ret
