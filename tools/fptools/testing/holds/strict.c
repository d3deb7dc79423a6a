/* A loop that calls a function with a loop, which is inlined: strict DWARF 2 doesn't tell where. */
#include "flexpret.h"
static volatile uint32_t seen[4], tries;

static inline uint32_t failed(uint32_t n)
{
    FP_LOOP(i, 2);
    for (uint32_t i = 0; i < 2 && seen[i] != n + 7; i++) { FP_ROUND(i);
        seen[i] = n;
        if (tries != 0 && tries-- != 0)
            return 1;
    }
    return 0;
}
__attribute__((noinline)) static void retried(uint32_t n)
{
    tries = n;
    FP_LOOP(loop, 15);
    while (failed(n))
        { FP_ROUND(loop); ; }
}
void main0(void)
{
    for (;;) {
        FP_MARK(work_begin);
        retried(FP_PORT);
        FP_MARK(work_end);
    }
}
