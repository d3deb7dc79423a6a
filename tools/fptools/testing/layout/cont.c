/* continue, at two places */
#define NAME cont
#include "shape.h"
SHAPE(u32 x) { u32 s = 0; FP_LOOP(i, 16); for (int i = 0; i < N; i++) { FP_ROUND(i);
        if (a[i] == x) continue;
        s += b[i];
        if (s & 4) { s ^= a[i]; continue; }
        b[i] = s + i; }
    return s; }
#include "frame.h"
