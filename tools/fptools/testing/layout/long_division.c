/* 64 bits by 32, a bit at a time */
#define NAME long_division
#include "shape.h"
SHAPE(u32 x) { uint64_t n = (uint64_t)a[1] << 32 | a[0] << 5 | x, rest = 0, q = 0; u32 d = (b[0] & 0xff) + 1;
    FP_LOOP(i, 64);
    for (int i = 63; i >= 0; i--) { FP_ROUND(i);
        rest = rest << 1 | (n >> i & 1);
        if (rest >= d) { rest -= d; q |= 1ull << i; } }
    return (u32)(q >> 32) ^ (u32)q ^ (u32)rest; }
#include "frame.h"
