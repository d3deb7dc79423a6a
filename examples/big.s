# T0 begins at the first address of scratchpads of 65,536 bytes, and goes on near their last. For GNU as or clang: the
# assembler of this program places code in the first 16,384 bytes alone.
        .section .first, "ax"
        .globl start
start:  j    far                # 0x0
        j    far                # 0x4: where a trap goes

        .section .gap, "ax", @nobits
        .space 0xfe00           # zeros, of which the executable holds none

        .section .last, "ax"
        .globl far
far:    lui  x1, 0x10           # 0xff00: the end of the instruction scratchpad
        lui  x2, 0x20010        # the end of the data scratchpad
        lui  x3, 0x40000        # the port
        lw   x5, -4(x1)         # its last word is a constant
        lw   x6, -256(x1)       # this code's first word
        sw   x5, -4(x2)
        lw   x7, -4(x2)
        sw   x7, 0(x3)
done:   j    done
        .space 0xd8             # up to 0xfffc
        .word 0x64000
