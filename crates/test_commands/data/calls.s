# A loop that calls two routines, four times. Its bound is told through them.
        li   x10, 0             # the sum
        li   x11, 4             # rounds
round:  jal  x1, scale
        jal  x1, clamp
        addi x11, x11, -1
        bnez x11, round
done:   j    done

        .org 0x100
scale:  slli x12, x11, 2        # four times the round is added
        add  x10, x10, x12
        ret

        .org 0x140
clamp:  li   x13, 8             # the sum stays at 8 or below
        blt  x10, x13, below
        mv   x10, x13
below:  ret
