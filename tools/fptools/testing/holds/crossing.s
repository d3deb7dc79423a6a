# Each of x10 rounds waits until the port is odd: the outer loop goes back from the middle of the inner one.
        .globl start0, work_begin, work_end
        .section .start.t0, "ax"
start0: li      x10, 4
        li      x12, 0x40000000
work_begin:
outer:  addi    x10, x10, -1
        beq     x10, x0, work_end
inner:  lw      x11, 0(x12)
        andi    x11, x11, 1
        bne     x11, x0, outer
        add     x13, x13, x11
        j       inner
work_end:
        j       work_end
