/* tries again from inside two loops */
#define NAME retry
#include "shape.h"
SHAPE(u32 x) { u32 tries = 0, s; FP_LOOP(loop, 5); again: FP_ROUND(loop);
    s = x + tries; FP_LOOP(i, 4); for (u32 i = 0; i < 4; i++)
        { FP_ROUND(i); { FP_LOOP(j, 4); for (u32 j = 0; j < 4; j++) { FP_ROUND(j);
            s = s * 5 + a[4 * i + j];
            if ((s & 63) == 1 && tries < 3) { tries++; b[i] ^= s; goto again; } } } }
    return s + tries; }
#include "frame.h"
