/* A loop that waits, whose stack reaches into the thread's data. */
#include "flexpret.h"

static volatile uint32_t out, table[300];

__attribute__((noinline)) static uint32_t large(uint32_t x)
{
    volatile uint32_t words[220];
    for (int i = 0; i < 220; i++)
        words[i] = x;
    return words[x & 31] + table[x & 255];
}

void main0(void)
{
    uint64_t next = fp_get_time();
    for (;;) {
        out = large(FP_PORT);
        next += 100000;
        fp_wait_until(next);
    }
}
