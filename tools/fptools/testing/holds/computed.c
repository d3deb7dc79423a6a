/* A jump to the address of a label, which the compiler knows: it goes back by the branch of the line above it. */
#include "flexpret.h"
static volatile uint32_t seen[4], tries;

__attribute__((noinline)) static void retried(uint32_t n)
{
    void *back = &&again;
    tries = n;
again:
    FP_LOOP(i, 2);
    for (uint32_t i = 0; i < 2 && seen[i] != n + 7; i++) { FP_ROUND(i);
        seen[i] = n;
        if (tries != 0 && tries-- != 0)
            goto *back;
    }
}
void main0(void)
{
    for (;;) {
        FP_MARK(work_begin);
        retried(FP_PORT);
        FP_MARK(work_end);
    }
}
