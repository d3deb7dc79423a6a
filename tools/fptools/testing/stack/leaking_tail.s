# A jump to another function, with a stack that isn't given back.
        .section .text.main0, "ax"
        .globl  main0
main0:  call    f
        j       main0

f:      addi    sp, sp, -16
        j       g

g:      addi    sp, sp, -32
        sw      a0, 0(sp)
        addi    sp, sp, 32
        ret
