# Plain arithmetic, in a loop.
loop: addi x1, x1, 1
      add  x2, x2, x1
      xor  x3, x3, x2
      j    loop
