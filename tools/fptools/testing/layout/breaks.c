/* two breaks, and work behind them */
#define NAME breaks
#include "shape.h"
SHAPE(u32 x) { u32 s = 1; int i; FP_LOOP(i, 16); for (i = 0; i < N; i++) { FP_ROUND(i);
        s = s * 3 + a[i];
        if (s > 100000 + x) { b[0] = s; break; }
        b[i] ^= s;
        if ((b[i] & 31) == 7) break; }
    return i == N ? s : s + (u32)i * 5; }
#include "frame.h"
