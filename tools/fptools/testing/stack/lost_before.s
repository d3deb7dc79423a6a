# A function that is called before the loop changes the return address that its caller keeps. So the
# thread goes to another loop, in which each wait is late.
        .section .text.main0, "ax"
        .globl  main0
        .type   main0, @function
main0:  .insn   r 0x0b, 0, 0, x10, x0, x0
        .insn   r 0x0b, 1, 0, x11, x0, x0
        li      x12, 2000
        call    f
loop:   add     x10, x10, x12
        sltu    x13, x10, x12
        add     x11, x11, x13
        .insn   r 0x0b, 3, 0, x0, x11, x10
        j       loop
other:  li      x5, 1000
down:   addi    x5, x5, -1
        bnez    x5, down
        add     x10, x10, x12
        .insn   r 0x0b, 3, 0, x0, x11, x10
        j       other
        .size   main0, . - main0
        .type   f, @function
f:      addi    sp, sp, -16
        sw      ra, 12(sp)
        la      x6, other
        call    g
        lw      ra, 12(sp)
        addi    sp, sp, 16
        ret
        .size   f, . - f
        .type   g, @function
g:      sw      x6, 12(sp)
        ret
        .size   g, . - g
