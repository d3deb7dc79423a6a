/* ones, leading zeros and reversed bits */
#define NAME bits
#include "shape.h"
SHAPE(u32 x) { u32 v = a[0] ^ x << 7, ones = 0, zeros = 0, r = 0;
    FP_LOOP(t, 33);
    for (u32 t = v; t; t &= t - 1)
        { FP_ROUND(t); ones++; }
    FP_LOOP(m, 33);
    for (u32 m = 0x80000000u; m && !(v & m); m >>= 1)
        { FP_ROUND(m); zeros++; }
    FP_LOOP(i, 32);
    for (int i = 0; i < 32; i++) { FP_ROUND(i);
        r = r << 1 | (v & 1); v >>= 1; }
    return r ^ ones << 8 ^ zeros; }
#include "frame.h"
