/* sinks in a heap, and stops where it may */
#define NAME heap
#include "shape.h"
SHAPE(u32 x) { u32 i = 0, v = x; FP_LOOP(loop, 6); for (;;) { FP_ROUND(loop);
        u32 c = 2 * i + 1;
        if (c >= N) break;
        if (c + 1 < N && a[c + 1] > a[c]) c++;
        if (a[c] <= v) break;
        a[i] = a[c];
        i = c; }
    a[i] = v;
    return i; }
#include "frame.h"
