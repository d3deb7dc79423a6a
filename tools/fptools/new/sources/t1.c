#include "flexpret.h"

#define PERIOD 20000 /* nanoseconds */
#define BITS 16

/* How many of the lowest bits are set. */
static uint32_t ones(uint32_t word)
{
    uint32_t count = 0;
    FP_LOOP(bits, BITS);
    for (int bit = 0; bit < BITS; bit++) {
        FP_ROUND(bits);
        count += word >> bit & 1;
    }
    return count;
}

/* Reads a word from the port of thread 1, and shows the number of its ones there. */
__attribute__((noinline)) static void step(void)
{
    FP_PORT = ones(FP_PORT);
}

void main1(void)
{
    uint64_t next = fp_get_time();
    for (;;) {
        FP_MARK(step1_begin);
        step();
        FP_MARK(step1_end);
        next += PERIOD;
        fp_wait_until(next);
    }
}
