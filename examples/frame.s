# T0 changes the length of the frame. T2, T3 and T4 are soft. T1 is confined, and loads from a shared region.
        li   x1, 0xfffffe20     # the frame T0, T2, S
        nop
        csrw slots, x1
        li   x2, 12
short:  addi x2, x2, -1
        bnez x2, short
        li   x1, 0xfff2e210     # the frame T0, T1, T2, S, T2
        csrw slots, x1
        li   x2, 8
long:   addi x2, x2, -1
        bnez x2, long
        li   x1, 0xffffee10     # the frame T0, T1, S, S
        csrw slots, x1
done:   j    done

        .org 0x80
        la   x5, trapped        # T1
        csrw mtvec, x5
        lui  x6, 0x20001        # a shared region
again:  lw   x7, 0(x6)          # traps by cause 5, as T1 is confined
        sw   x7, 0(x6)          # stores there don't trap
        j    again

        .org 0xc0
trapped: csrr x8, mepc
        addi x8, x8, 4
        csrw mepc, x8
        mret

        .org 0x100
count:  addi x5, x5, 1          # T2, T3 and T4
        j    count
