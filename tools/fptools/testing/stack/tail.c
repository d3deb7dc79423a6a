/* Last calls, which a compiler makes jumps, and arguments on the stack. */
#include "flexpret.h"

static volatile uint32_t out;

__attribute__((noinline)) static uint32_t many(uint32_t a, uint32_t b, uint32_t c, uint32_t d, uint32_t e, uint32_t f,
                                               uint32_t g, uint32_t h, uint32_t i, uint32_t j)
{
    volatile uint32_t words[6];
    words[g % 6] = a + b + c + d;
    return words[g % 6] * e + f + h * i + j;
}

__attribute__((noinline)) static uint32_t last(uint32_t x)
{
    volatile uint32_t words[10];
    words[x % 10] = x;
    return many(x, 1, 2, 3, 4, 5, 6, 7, words[x % 10], 9);
}

__attribute__((noinline)) static uint32_t first(uint32_t x)
{
    volatile uint32_t words[30];
    words[x % 30] = x;
    out = words[x % 7];
    return last(x + 1);
}

void main0(void)
{
    for (;;)
        out = first(FP_PORT);
}
