/* Two functions with the same code, which the compiler folds into one, and with loops of different rounds. */
#include "flexpret.h"
static volatile uint32_t words[32];
#define APART __attribute__((noinline)) static uint32_t

APART sum_small(uint32_t n)
{
    uint32_t s = 0;
    FP_LOOP(i, 4);
    for (uint32_t i = 0; i < n; i++)
        { FP_ROUND(i); s = s * 3 + words[i]; }
    return s;
}

APART sum_large(uint32_t n)
{
    uint32_t s = 0;
    FP_LOOP(i, 15);
    for (uint32_t i = 0; i < n; i++)
        { FP_ROUND(i); s = s * 3 + words[i]; }
    return s;
}

void main0(void)
{
    uint64_t next = fp_get_time();
    for (;;) {
        uint32_t n = FP_PORT & 15;
        FP_MARK(work_begin);
        uint32_t sum = n < 5 ? sum_small(n) : sum_large(n);
        FP_KEEP(sum);
        FP_MARK(work_end);
        FP_PORT = sum;
        next += 10000;
        fp_wait_until(next);
    }
}
