# T0 has every fourth cycle, so its turns are 40 ns apart. It arms moments at and next to its turns, waits for a moment that
# is after an armed one, and loads the port while its word changes in each cycle.
        la   t0, expired
        csrw mtvec, t0
        lui  s0, 0x40000        # the port

        gt   t1
        addi t2, t1, 160        # the time of the second word after EE
        ee   x0, t2
        nop
        nop                     # doesn't issue: the moment is the time of its turn

        gt   t1
        addi t2, t1, 161        # a nanosecond later
        ee   x0, t2
        nop
        nop                     # issues
        nop                     # doesn't issue

        gt   t1
        addi t2, t1, 320
        addi t3, t1, 2000
        ee   x0, t2
        wu   x0, t3             # sleeps until the armed moment
        nop                     # doesn't issue

        lw   t4, 0(s0)          # the word of the cycle in which LW issues
        lw   t5, 0(s0)
        lw   t6, 0(s0)
done:   j    done

expired: csrr t3, mepc
        sw   t3, 0(s0)          # the word that didn't issue
        addi t3, t3, 4
        csrw mepc, t3
        mret
