# T0: counts each 400 nanoseconds, and sleeps until the next.
        gt   x10
        gth  x11
loop:   addi x5, x5, 1
        addi x10, x10, 400      # without a carry: for runs up to 4.29 s
        wu   x11, x10           # its turns go to T2 meanwhile
        j    loop

        .org 0x40               # T1: starts asleep, and counts while it is awake
count:  addi x6, x6, 1
        j    count

        .org 0x80               # T2: soft, with a permit: wakes T1 for a while
        li   x7, 4              # T1's bit of `asleep` in the modes register
        csrrc x0, modes, x7
        li   x8, 12
pause:  addi x8, x8, -1
        bnez x8, pause
        csrrs x0, modes, x7
done:   j    done
