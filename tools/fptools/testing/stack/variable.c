/* An array of variable length. */
#include "flexpret.h"

static volatile uint32_t out;

__attribute__((noinline)) static void fill(volatile uint32_t *p, uint32_t n)
{
    for (uint32_t i = 0; i < n; i++)
        p[i] = i;
}

__attribute__((noinline)) static uint32_t grows(uint32_t n)
{
    uint32_t words[n];
    fill(words, n);
    return words[n / 2];
}

void main0(void)
{
    for (;;)
        out = grows(FP_PORT & 15);
}
