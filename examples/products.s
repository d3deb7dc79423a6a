# T0 multiplies and divides pairs of numbers at the edges of their range. At the port it shows of each pair the low word of
# the product, its high words by MULH, MULHSU and MULHU, and the results of DIV, DIVU, REM and REMU.
        lui  s0, 0x40000        # the port
        la   s1, pairs
        la   s2, past
next:   lw   a0, 0(s1)
        lw   a1, 4(s1)
        mul  a2, a0, a1
        sw   a2, 0(s0)
        mulh a2, a0, a1
        sw   a2, 0(s0)
        mulhsu a2, a0, a1
        sw   a2, 0(s0)
        mulhu a2, a0, a1
        sw   a2, 0(s0)
        div  a2, a0, a1
        sw   a2, 0(s0)
        divu a2, a0, a1
        sw   a2, 0(s0)
        rem  a2, a0, a1
        sw   a2, 0(s0)
        remu a2, a0, a1
        sw   a2, 0(s0)
        addi s1, s1, 8
        bne  s1, s2, next
done:   j    done

        .org 0x20000000
pairs:  .word -7, 2             # the remainder has the sign of -7
        .word 7, -2             # and here that of 7
        .word -7, -2
        .word 0x80000000, -1    # the quotient doesn't fit, and is 0x80000000
        .word -1, 0x80000000
        .word -7, 0             # a division by 0 gives -1, and the remainder is -7
        .word 0x7fffffff, 0x80000001
past:   .word 0
