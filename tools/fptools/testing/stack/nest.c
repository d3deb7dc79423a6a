/* Three functions, each with an array, that call each other. */
#include "flexpret.h"

static volatile uint32_t out;

__attribute__((noinline)) static uint32_t inner(uint32_t x)
{
    volatile uint32_t words[12];
    for (int i = 0; i < 12; i++)
        words[i] = x + i;
    return words[x & 7];
}

__attribute__((noinline)) static uint32_t middle(uint32_t x)
{
    volatile uint8_t bytes[37];
    for (int i = 0; i < 37; i++)
        bytes[i] = x;
    return inner(bytes[x & 7]) + bytes[3];
}

__attribute__((noinline)) static uint32_t outer(uint32_t x)
{
    return x & 1 ? middle(x) + inner(x) : inner(x);
}

void main0(void)
{
    for (;;)
        out = outer(FP_PORT);
}
