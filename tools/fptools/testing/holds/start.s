# Where thread 0 begins, as in examples/c/start.s.
        .macro  start_thread number
        .section .start.t\number, "ax"
        .globl  start\number, stopped\number
start\number:
        la      sp, stack_top\number
        la      t0, stopped\number
        csrw    mtvec, t0
        call    main\number
stopped\number:
        j       stopped\number
        .endm
        start_thread 0
