# A called function stores into the frame of its caller, where that keeps s0, of which sp comes.
        .section .text.main0, "ax"
        .globl  main0
main0:  addi    sp, sp, -16
        mv      s0, sp
        call    f
        mv      sp, s0
        addi    sp, sp, 16
        j       main0

f:      addi    sp, sp, -16
        sw      ra, 12(sp)
        sw      s0, 8(sp)
        call    g
        lw      s0, 8(sp)
        lw      ra, 12(sp)
        addi    sp, sp, 16
        ret

g:      addi    t0, sp, -64
        sw      t0, 8(sp)
        ret
