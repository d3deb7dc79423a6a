/* a loop with two bodies, and as many rounds as it may have */
#define NAME collatz
#include "shape.h"
SHAPE(u32 x) { u32 v = (x & 63) + 1, n = 0; FP_LOOP(loop, 41); while (v != 1 && n < 40) { FP_ROUND(loop);
        if (v & 1) { v = 3 * v + 1; b[0] += v; } else v >>= 1;
        n++; }
    return n * 100 + (v & 63); }
#include "frame.h"
