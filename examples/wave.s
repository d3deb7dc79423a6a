# T0 answers each word of its port with twice the word.
        lui  x2, 0x40000        # the port
loop:   lw   x5, 0(x2)
        add  x5, x5, x5
        sw   x5, 0(x2)
        j    loop
