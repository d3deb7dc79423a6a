/* goto into a loop: it is entered at two places */
#define NAME goto_in
#include "shape.h"
SHAPE(u32 x) { u32 i = 0, s = x; FP_LOOP(loop, 17); if (x & 1) goto middle;
    while (i < N) { FP_ROUND(loop);
        s += a[i] * 5;
        b[i] = s;
middle:
        s ^= b[i] + i;
        i++; }
    return s; }
#include "frame.h"
