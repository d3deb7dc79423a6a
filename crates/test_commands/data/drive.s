# T0: read the port, keep the word, and log it in a shared region.
        lui  x1, 0x20000        # its own data
        lui  x2, 0x40000        # the port
        gt   x10
        gth  x11
loop:   lw   x5, 0(x2)
        sw   x5, 0(x1)
        lw   x6, 0(x1)
        lui  x3, 0x20001        # the log
        sw   x6, 0(x3)
        li   x12, 600           # each 600 nanoseconds: the moment is x11 and x10, 64 bits
        add  x10, x10, x12
        sltu x13, x10, x12      # 1 where the low word went past 2^32
        add  x11, x11, x13
        wu   x11, x10
        j    loop
.org 0x40                       # T1: does nothing
idle:   j    idle
.org 0x100                      # the soft threads: count
count:  addi x1, x1, 1
        j    count
