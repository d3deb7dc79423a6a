/* conditions with or and and, in a loop */
#define NAME short_or
#include "shape.h"
SHAPE(u32 x) { u32 s = 0; FP_LOOP(i, 16); for (u32 i = 0; i < N; i++)
        { FP_ROUND(i); if ((a[i] < x || b[i] > 9) && (i & 1 || a[i] == b[i] || (s & 3) == 2)) s += a[i];
        else if (!(a[i] & 2) || b[i] == 1) s -= i; }
    return s; }
#include "frame.h"
