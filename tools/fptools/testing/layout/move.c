/* memmove: forward or backward */
#define NAME move
#include "shape.h"
SHAPE(u32 x) { u32 n = x & 7, from = x >> 3 & 7, to = x >> 6 & 7; if (from < to)
        { FP_LOOP(i, 7); for (u32 i = n; i > 0; i--)
            { FP_ROUND(i); b[to + i - 1] = b[from + i - 1] + 1; } }
    else
        { FP_LOOP(i2, 7); for (u32 i = 0; i < n; i++)
            { FP_ROUND(i2); b[to + i] = b[from + i] + 1; } }
    return b[5]; }
#include "frame.h"
