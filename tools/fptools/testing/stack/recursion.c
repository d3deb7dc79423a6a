#include "flexpret.h"

static volatile uint32_t out;

__attribute__((noinline)) static uint32_t odd(uint32_t x);

__attribute__((noinline)) static uint32_t even(uint32_t x)
{
    return x ? odd(x - 1) + 1 : 1;
}

__attribute__((noinline)) static uint32_t odd(uint32_t x)
{
    return x ? even(x - 1) * 3 : 0;
}

void main0(void)
{
    for (;;)
        out = even(FP_PORT);
}
