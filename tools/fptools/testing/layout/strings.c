/* length and comparison of bytes */
#define NAME strings
#include "shape.h"
SHAPE(u32 x) { const uint8_t *p = (const uint8_t *)a, *q = (const uint8_t *)b; u32 n = 0;
    FP_LOOP(loop, 61);
    while (n < 60 && p[n])
        { FP_ROUND(loop); n++; }
    u32 k = 0;
    FP_LOOP(loop2, 61);
    while (k < 60 && p[k] == q[k]) { FP_ROUND(loop2);
        if (!p[k]) return n;
        k++; }
    return n * 64 + (p[k] < q[k] ? k : 63 - k) + (x & 1); }
#include "frame.h"
