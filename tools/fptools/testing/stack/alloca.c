/* A stack that grows in each round of a loop. */
#include "flexpret.h"

static volatile uint32_t out;

__attribute__((noinline)) static void fill(volatile uint32_t *p, uint32_t n)
{
    for (uint32_t i = 0; i < n; i++)
        p[i] = i;
}

__attribute__((noinline)) static uint32_t grows(uint32_t n)
{
    for (uint32_t i = 0; i < n; i++) {
        uint32_t *words = __builtin_alloca(32);
        fill(words, 8);
        out = words[3];
    }
    return n;
}

void main0(void)
{
    for (;;)
        out = grows(FP_PORT & 15);
}
