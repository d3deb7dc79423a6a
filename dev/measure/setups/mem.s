# Eight soft threads that load, store, multiply and divide, all widths; slots of two names are theirs to borrow.
start: lui  x8, 0x20000
      addi x1, x0, 3
      addi x2, x0, 7
loop: lw   x3, 0(x8)
      add  x3, x3, x1
      sw   x3, 0(x8)
      mul  x4, x3, x2
      lb   x5, 1(x8)
      sb   x5, 5(x8)
      divu x6, x4, x2
      lhu  x7, 2(x8)
      sh   x7, 10(x8)
      rem  x9, x4, x1
      bne  x9, x0, skip
      addi x1, x1, 1
skip: addi x2, x2, 2
      j    loop
