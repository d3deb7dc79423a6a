/* A stack that reaches into the thread's data. */
#include "flexpret.h"

static volatile uint32_t out, table[300];

__attribute__((noinline)) static uint32_t large(uint32_t x)
{
    volatile uint32_t words[220];
    for (int i = 0; i < 220; i++)
        words[i] = x;
    return words[x & 31] + table[x & 255];
}

void main0(void)
{
    for (;;) {
        FP_MARK(step_begin);
        uint32_t x = FP_PORT;
        FP_PORT = x + 1;
        FP_MARK(step_end);
        out = large(x);
    }
}
