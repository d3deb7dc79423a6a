/* 64 bits: sums, products, shifts, comparisons */
#define NAME wide
#include "shape.h"
SHAPE(u32 x) { uint64_t s = x; int64_t d = -(int64_t)x; FP_LOOP(i, 16); for (u32 i = 0; i < N; i++) { FP_ROUND(i);
        s += (uint64_t)a[i] * b[i] << (i & 7);
        d -= (int64_t)(i32)a[i] * (i32)(b[i] - 7);
        if (s > 0x100000000ull + x) s -= d > 0 ? (uint64_t)d : 5;
        if (d < -70000) d += (int64_t)(s >> 9); }
    return (u32)(s >> 16) ^ (u32)d; }
#include "frame.h"
