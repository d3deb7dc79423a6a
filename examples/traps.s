# T0 traps by each cause there is, and its handler shows the cause at the port.
        la   t0, handler
        csrw mtvec, t0
        lui  s0, 0x40000        # the port
        lui  s1, 0x30000        # an address of nothing
        ecall                   # 11
        ebreak                  # 3
        .word 0                 # 2: no instruction
        csrr t2, slots          # 2: T0 has no permit
        jalr x0, 2(x0)          # 0: a jump to no multiple of four
        jalr ra, 0(s1)          # 1: a fetch where nothing is
        lw   t2, 2(s1)          # 4: a misaligned load
        lw   t2, 0(s1)          # 5: a load where nothing is
        sw   t2, 2(s1)          # 6: a misaligned store
        sw   t2, 0(x0)          # 7: nobody stores among the instructions
        gt   t2
        gth  t3
        ee   t3, t2             # 24: a moment that has come already, at the next issue
        nop
done:   j    done

        .org 0x100
handler: csrr t0, mcause
        sw   t0, 0(s0)
        li   t1, 24
        beq  t0, t1, back       # the word at mepc didn't issue, so it is next
        li   t1, 1
        beq  t0, t1, caller     # no word at mepc can be fetched
        csrr t1, mepc
        addi t1, t1, 4          # behind the word that trapped
        csrw mepc, t1
back:   mret
caller: csrw mepc, ra
        mret
