/* A trap handler that arms the next moment, and comes back. */
#include "flexpret.h"

static volatile uint32_t ticks, out;

__attribute__((interrupt("machine"), aligned(4))) static void on_tick(void)
{
    volatile uint32_t words[3];
    words[ticks % 3] = ticks;
    ticks = words[ticks % 3] + 1;
    fp_exception_on_expire(fp_get_time() + 5000);
}

__attribute__((noinline)) static uint32_t work(uint32_t x)
{
    volatile uint32_t words[9];
    for (uint32_t i = 0; i < 40; i++)
        words[i & 7] = x * i;
    return words[1];
}

void main0(void)
{
    fp_write_csr(mtvec, (uint32_t)on_tick);
    fp_exception_on_expire(fp_get_time() + 5000);
    for (;;)
        out = work(FP_PORT);
}
