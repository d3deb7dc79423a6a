# A trap handler that returns by `ret`.
        .section .text.main0, "ax"
        .globl  main0
main0:  la      t1, handler
        csrw    mtvec, t1
loop:   addi    sp, sp, -16
        call    f
        addi    sp, sp, 16
        j       loop

f:      addi    sp, sp, -16
        ecall
        addi    sp, sp, 16
        ret

handler:
        ret
