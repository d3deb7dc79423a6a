# Threads 2 to 7, soft: neighbours that nobody has to trust. Each fills the shared data region with its own
# number, over and over, as fast as its turns go.

        .section .start.t2, "ax"
        .globl  fill
fill:   csrr    t0, mhartid
again:  la      t1, shared_begin
        la      t2, shared_end
word:   sw      t0, 0(t1)
        addi    t1, t1, 4
        bne     t1, t2, word
        j       again
