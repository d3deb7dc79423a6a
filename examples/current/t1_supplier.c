/* Thread 1, soft: code of a supplier, which nobody has to trust. It takes each cycle that it gets, and tries to write into
   the controller's data. Each such store traps, and the handler goes on behind it. */
#include "flexpret.h"

#define CONTROLLER ((volatile uint32_t *)0x20000000)

__attribute__((interrupt("machine"), aligned(4))) static void on_trap(void)
{
    fp_write_csr(mepc, fp_read_csr(mepc) + 4);
}

void main1(void)
{
    fp_write_csr(mtvec, (uint32_t)on_trap);
    for (uint32_t count = 0;; count++) {
        CONTROLLER[count % 64] = 0xffffffff;
        FP_PORT = count;
    }
}
