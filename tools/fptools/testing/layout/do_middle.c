/* do while that is left in its middle, and begun again from there */
#define NAME do_middle
#include "shape.h"
SHAPE(u32 x) { u32 i = 0, s = x; FP_LOOP(loop, 16); do { FP_ROUND(loop);
        s += a[i];
        if (s & 1) { b[i] = s; continue; }
        if (s > 70000) break;
        s = s * 2 - b[i];
    } while (++i < N);
    return s * 2 + i; }
#include "frame.h"
