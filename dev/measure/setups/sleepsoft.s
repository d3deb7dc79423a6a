# Six hard threads that sleep, and a soft one that counts.
start: gt x10
       gth x11
loop:  addi x1, x1, 1
       addi x10, x10, 2000
       wu x11, x10
       j loop
.org 0x100
count: addi x1, x1, 1
       j count
