/* Two functions of the same code but for their rounds, which a linker folds (ld.lld --icf=all). */
#include "flexpret.h"
static volatile uint32_t count;
static uint32_t a[64];

__attribute__((noinline)) static uint32_t sum_large(const uint32_t *from, uint32_t n)
{
    uint32_t sum = 0;
    FP_LOOP(i, 40);
    for (uint32_t i = 0; i < n; i++)
        { FP_ROUND(i); sum += from[i] * 3; }
    return sum;
}
__attribute__((noinline)) static uint32_t sum_small(const uint32_t *from, uint32_t n)
{
    uint32_t sum = 0;
    FP_LOOP(i, 4);
    for (uint32_t i = 0; i < n; i++)
        { FP_ROUND(i); sum += from[i] * 3; }
    return sum;
}
void main0(void)
{
    for (;;) {
        FP_MARK(work_begin);
        count += sum_large(a, FP_PORT + 20);
        count += sum_small(a, FP_PORT & 3);
        FP_MARK(work_end);
    }
}
