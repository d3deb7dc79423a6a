/* Functions that save registers only on some of their paths, and one with a stack in a loop. */
#include "flexpret.h"

static volatile uint32_t out;

__attribute__((noinline)) static void leaf(volatile uint32_t *p)
{
    p[0]++;
}

__attribute__((noinline)) static uint32_t early(uint32_t x)
{
    if (!(x & 1))
        return 0;
    uint32_t v[4] = { x, x, x, x };
    leaf(v);
    leaf(v + 1);
    return v[0] + v[1];
}

__attribute__((noinline)) static uint32_t rounds(uint32_t x)
{
    uint32_t sum = 0;
    for (uint32_t i = 0; i < 5; i++) {
        uint32_t w[20];
        for (uint32_t k = 0; k < 20; k++)
            w[k] = k;
        leaf(w + i);
        sum += w[i];
    }
    return sum + x;
}

void main0(void)
{
    for (;;) {
        out = early(FP_PORT);
        out = rounds(out);
    }
}
