# T0 samples its port each 400 nanoseconds, and shows how far the word rose since the last sample.
        lui  x2, 0x40000        # the port
        gt   x10                # the time in nanoseconds, in x11 and x10
        gth  x11
        lw   x5, 0(x2)          # the first sample
loop:   addi x10, x10, 400      # without a carry: for runs up to 4.29 s
        wu   x11, x10           # sleep until the next one is due
        lw   x6, 0(x2)
        sub  x7, x6, x5
        sw   x7, 0(x2)
        mv   x5, x6
        j    loop
