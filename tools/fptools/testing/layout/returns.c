/* many returns, in loops and behind them */
#define NAME returns
#include "shape.h"
static i32 sign_of(u32 v) { if (v & 0x8000) return -1; if (!v) return 0; return 1; }
SHAPE(u32 x) { i32 s = 0; FP_LOOP(i, 16); for (u32 i = 0; i < N; i++) { FP_ROUND(i);
        i32 k = sign_of(a[i]);
        if (k == 0 && b[i] < 2) return i;
        if (k < 0) { s -= 3; if (s < -20) return (u32)s; }
        else { s += (i32)(b[i] & 3); if (s > 40) return (u32)s + x; } }
    if (s == 0) return 1;
    return (u32)(s < 0 ? -s : s * 2); }
#include "frame.h"
