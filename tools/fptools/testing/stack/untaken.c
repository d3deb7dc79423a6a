/* The deepest path is one that this run doesn't take. */
#include "flexpret.h"

static volatile uint32_t out;

__attribute__((noinline)) static uint32_t large(uint32_t x)
{
    volatile uint32_t words[100];
    words[x & 63] = x;
    return words[x & 31];
}

__attribute__((noinline)) static uint32_t rarely(uint32_t x)
{
    if (x == 12345) {
        out = 1;
        return large(x) + x;
    }
    return x + 1;
}

void main0(void)
{
    for (;;)
        out = rarely(FP_PORT);
}
