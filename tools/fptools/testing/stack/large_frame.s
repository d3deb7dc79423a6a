# A frame that is larger than the immediate of ADDI, and one that wraps around.
        .section .text.main0, "ax"
        .globl  main0
main0:  call    f
        j       main0

f:      li      t0, 0x80000010
        sub     sp, sp, t0
        sub     sp, sp, t0
        li      t0, 0x20
        add     sp, sp, t0
        ret
