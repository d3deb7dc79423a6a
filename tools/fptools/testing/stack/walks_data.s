# A pointer that walks through data of a section, up from its begin and down from its end.
        .section .text.main0, "ax"
        .globl  main0
main0:  addi    sp, sp, -32
        la      t0, array
        la      t1, behind
up:     sw      zero, 0(t0)
        addi    t0, t0, 4
        bne     t0, t1, up
        la      t2, array
down:   addi    t1, t1, -4
        sw      zero, 0(t1)
        bne     t0, t1, down
        addi    sp, sp, 32
        j       main0
        .section .bss.array, "aw", @nobits
array:  .zero   256
behind:
