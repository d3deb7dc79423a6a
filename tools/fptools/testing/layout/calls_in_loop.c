/* a call in each round */
#define NAME calls_in_loop
#include "shape.h"
static __attribute__((noinline, noclone)) u32 mixed(u32 v, u32 w) { FP_LOOP(i, 3); for (int i = 0; i < 3; i++)
        { FP_ROUND(i); v = v & 1 ? (v >> 1) + w : v * 3 + 1; }
    return v; }
SHAPE(u32 x) { u32 s = x; FP_LOOP(i, 5); for (int i = 0; i < 5; i++) { FP_ROUND(i);
        if (a[i] & 1) s += mixed(a[i], s); else s ^= mixed(b[i], x);
        b[i] = s; }
    return s; }
#include "frame.h"
