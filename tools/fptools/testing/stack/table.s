# A called function stores by a pointer from a constant table, to where a stack is and no section.
        .section .text.main0, "ax"
        .globl  main0
        .type   main0, @function
main0:  addi    sp, sp, -32
next:   lui     t1, 0x40000
        lw      a0, 0(t1)
        call    f
        j       next
        .size   main0, . - main0
        .type   f, @function
f:      andi    a0, a0, 4
        la      t0, table
        add     t0, t0, a0
        lw      t0, 0(t0)
        sw      zero, 0(t0)
        ret
        .size   f, . - f
        .section .rodata
table:  .word   0x200007dc, 0x20000740
