/* goes on in the middle of a loop where it stopped */
#define NAME coroutine
#include "shape.h"
static u32 state, at;
SHAPE(u32 x) { u32 s = 0; FP_LOOP(at, 17); switch (state) { case 0:
        for (at = 0; at < N; at++) { FP_ROUND(at);
            s += a[at];
            if (s > x) { state = 1; return s; } /* fall through */
    case 1:
            b[at & 15] += s;
            if (b[at & 15] & 8) { state = 2; return s * 7; } /* fall through */
    case 2: s ^= at; } }
    state = 0;
    return s; }
#include "frame.h"
