/* A trap handler with a stack of its own, which comes back. */
#include "flexpret.h"

static volatile uint32_t out, late;

__attribute__((noinline)) static uint32_t added(uint32_t x)
{
    volatile uint32_t words[5];
    words[x & 3] = x;
    return words[0] + late;
}

__attribute__((interrupt("machine"), aligned(4))) static void on_trap(void)
{
    late = added(late + 1);
}

__attribute__((noinline)) static uint32_t work(uint32_t x)
{
    volatile uint32_t words[9];
    for (uint32_t i = 0; i < 400; i++)
        words[i & 7] = x * i;
    return words[1];
}

void main0(void)
{
    fp_write_csr(mtvec, (uint32_t)on_trap);
    for (;;) {
        fp_exception_on_expire(fp_get_time() + 3000);
        out = work(FP_PORT);
    }
}
