# Four hard threads of plain arithmetic, and four slots of nobody.
loop: addi x1, x1, 1
      add  x2, x2, x1
      xor  x3, x3, x2
      j    loop
