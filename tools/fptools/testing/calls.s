# A section that calls a function, which calls another, and a function that a call of `broken` reaches and which traps.
        .globl start, back, again, outer, inner, broken
        .type start, @function
start:  jal  ra, outer
back:   jal  ra, broken
again:  j    again
        .size start, . - start

        .type outer, @function
outer:  mv   s0, ra
        jal  ra, inner
        mv   ra, s0
        ret
        .size outer, . - outer

        .type inner, @function
inner:  nop
        ret
        .size inner, . - inner

        .type broken, @function
broken: ebreak
        ret
        .size broken, . - broken
