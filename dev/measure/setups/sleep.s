# Six hard threads that sleep, each awake every 2,000 nanoseconds.
start: gt x10
       gth x11
loop:  addi x1, x1, 1
       addi x10, x10, 2000
       wu x11, x10
       j loop
