/* A loop that tests before its body: it goes back as often as its body is executed. */
#include "flexpret.h"
static volatile uint32_t table[15];
__attribute__((noinline)) uint32_t sum_of(uint32_t n)
{
    uint32_t sum = 0;
    FP_LOOP(i, 15);
    for (uint32_t i = 0; i < n; i++)
        { FP_ROUND(i); sum += table[i]; }
    return sum;
}
void main0(void)
{
    for (;;) {
        FP_MARK(work_begin);
        FP_PORT = sum_of(FP_PORT & 15);
        FP_MARK(work_end);
    }
}
