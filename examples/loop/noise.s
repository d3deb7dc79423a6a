# Threads 1 to 7: neighbours that nobody has to trust. Each fills the shared data region, stores to its own
# port, traps on an illegal word, and comes back to do it again.

        .text
        .globl  noise
noise:  csrr    t0, mhartid
        la      t3, trapped
        csrw    mtvec, t3
        li      t4, 0x40000000
again:  la      t1, shared_begin
        la      t2, shared_end
word:   sw      t0, 0(t1)
        sw      t1, 0(t4)
        lw      t5, 0(t4)
        add     t0, t0, t5
        addi    t1, t1, 4
        bne     t1, t2, word
        .word   0
trapped:
        j       again

# Thread 0 begins as in examples/c.
        .section .start.t0, "ax"
        .globl  start0
start0: la      sp, stack_top0
        call    main0
stopped0:
        j       stopped0
