/* Loops of many shapes, with marks. */
#include "flexpret.h"
static volatile uint32_t a[16], count;
#define SHAPE __attribute__((noinline)) uint32_t
#define WAIT_UNTIL(test) while (!(test)) {}
static inline uint32_t next_of(void) { return a[count++ & 15]; }

SHAPE continued(uint32_t n)
{
    uint32_t s = 0;
    FP_LOOP(i, 15);
    for (uint32_t i = 0; i < n; i++) { FP_ROUND(i);
        if (a[i] & 1)
            continue;
        s += a[i] * 3;
        if (s & 1)
            continue;
        s ^= a[i];
    }
    return s;
}
SHAPE endless(uint32_t n)
{
    uint32_t s = 0;
    FP_LOOP(loop, 16);
    for (;;) { FP_ROUND(loop);
        s += a[n];
        if (n == 0)
            return s;
        s ^= a[n--];
    }
}
SHAPE empty(void)
{
    FP_LOOP(loop, 9);
    while (next_of() != 0)
        FP_ROUND(loop);
    return count;
}
SHAPE hidden(uint32_t n)
{
    FP_LOOP(i, 8);
    for (uint32_t i = 0; i < 8; i++) { FP_ROUND(i); n++; WAIT_UNTIL(a[i] & 1) }
    return n;
}
SHAPE oneline(uint32_t n)
{
    uint32_t s = 0;
    for (uint32_t i = 0; i < n; i++) { FP_LOOP(k, 4); for (uint32_t k = 0; k < n; k++) { FP_ROUND(k); s += a[i] * a[k]; } }
    return s;
}
SHAPE unrolled(uint32_t s)
{
    while (FP_PORT & 1) {
        s += 3;
        FP_LOOP(k, 4);
        for (uint32_t k = 0; k < 4; k++)
            { FP_ROUND(k); s = (s ^ k) * 5 + a[k]; }
    }
    return s;
}
SHAPE tested_last(uint32_t n)
{
    uint32_t s = 0;
    FP_LOOP(loop, 16);
    do { FP_ROUND(loop);
        s += a[n & 15];
    } while (n-- & 15);
    return s;
}
void main0(void)
{
    for (;;) {
        uint32_t n = FP_PORT & 15;
        FP_PORT = continued(n) + endless(n) + empty() + hidden(n) + oneline(n & 3) + unrolled(n) + tested_last(n);
    }
}
