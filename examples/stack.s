# T0 takes a number to the third power by a routine that calls another, and so keeps its return address on a stack.
        li   sp, 0x20000800     # the end of T0's own data region: a stack grows downwards
        lui  s0, 0x40000        # the port
        li   a0, 7
        jal  ra, cube           # 0x10
        sw   a0, 0(s0)          # 0x14: 343
done:   j    done

        .org 0x100
cube:   addi sp, sp, -8         # room for two words
        sw   ra, 4(sp)
        sw   a0, 0(sp)
        jal  ra, square         # this call takes ra anew
        lw   t0, 0(sp)
        mul  a0, a0, t0
        lw   ra, 4(sp)
        addi sp, sp, 8
        ret                     # 0x120

        .org 0x140
square: mul  a0, a0, a0
        ret                     # 0x144
