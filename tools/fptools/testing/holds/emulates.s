# A misaligned load, which the trap handler emulates.
        .globl start0, work_begin, work_end, handler
        .section .start.t0, "ax"
start0: la      t0, handler
        csrw    mtvec, t0
        li      s0, 0x20000000
        li      s1, 0x40000000
work_begin:
        lw      t1, 0(s1)
        lw      t2, 1(s0)
        add     t1, t1, t2
        sw      t1, 0(s1)
work_end:
        j       work_begin
handler:
        li      t5, 50
1:      addi    t5, t5, -1
        bnez    t5, 1b
        csrr    t6, mepc
        addi    t6, t6, 4
        csrw    mepc, t6
        mret
