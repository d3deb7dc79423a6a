# Four hard threads at their ports, fed four words each, and four soft ones at none.
start: lui x2, 0x40000
loop: lw x5, 0(x2)
      addi x5, x5, 1
      sw x5, 0(x2)
      lw x6, 0(x2)
      sw x6, 0(x2)
      j loop
