/* loops of gotos alone */
#define NAME goto_back
#include "shape.h"
SHAPE(u32 x) { u32 i = 0, j, s = 0;
FP_LOOP(loop, 5); next: FP_ROUND(loop);
    j = 0;
FP_LOOP(loop2, 5); again: FP_ROUND(loop2);
    s += a[4 * i + j] * (x & 7);
    if (++j < 4) goto again;
    b[i] = s;
    if (s & 1) goto odd;
    if (++i < 4) goto next;
    return s;
odd:
    s += 3;
    if (++i < 4) goto next;
    return s * 3; }
#include "frame.h"
