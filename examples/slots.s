# T0 gives every second turn to T1, and takes it back after a while.
        li   x1, 0xffffff10     # the frame T0, T1
        csrw slots, x1
        li   x2, 5
pause:  addi x2, x2, -1
        bnez x2, pause
        li   x1, 0xfffffff0     # the frame T0
        csrw slots, x1
done:   j    done

        .org 0x40
count:  addi x5, x5, 1          # T1
        j    count
