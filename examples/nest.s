# T0 adds up a triangle of numbers by a loop in a loop, and shows the sum at its port.
        lui  x2, 0x40000        # the port
        li   x6, 5              # the number in this row
row:    mv   x7, x6             # 0x8: as many cells as that
cell:   add  x5, x5, x6         # 0xc
        addi x7, x7, -1
        bnez x7, cell           # 0x14
        addi x6, x6, -1
        bnez x6, row            # 0x1c
        sw   x5, 0(x2)          # 0x20: 55 = 5*5 + 4*4 + 3*3 + 2*2 + 1
done:   j    done
