# The return address is kept below sp, where the called function has its own.
        .section .text.main0, "ax"
        .globl  main0
main0:  call    f
        j       main0

f:      sw      ra, -4(sp)
        call    g
        lw      ra, -4(sp)
        ret

g:      sw      ra, -4(sp)
        ret
