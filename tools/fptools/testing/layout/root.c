/* a square root, with a search for its first bit */
#define NAME root
#include "shape.h"
SHAPE(u32 x) { u32 v = a[2] * 7 + x, r = 0, bit = 1u << 30; FP_LOOP(loop, 17); while (bit > v)
        { FP_ROUND(loop); bit >>= 2; }
    FP_LOOP(loop2, 17);
    while (bit) { FP_ROUND(loop2);
        if (v >= r + bit) { v -= r + bit; r = (r >> 1) + bit; } else r >>= 1;
        bit >>= 2; }
    return r; }
#include "frame.h"
