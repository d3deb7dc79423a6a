/* halves an interval */
#define NAME search
#include "shape.h"
SHAPE(u32 x) { u32 low = 0, high = N; FP_LOOP(loop, 6); while (low < high) { FP_ROUND(loop);
        u32 m = (low + high) / 2;
        if (a[m] == x) return m;
        if (a[m] < x) low = m + 1; else high = m; }
    return low + 32; }
#include "frame.h"
