/* a test of two conditions at the head */
#define NAME short_and
#include "shape.h"
SHAPE(u32 x) { u32 i = 0; FP_LOOP(loop, 17); while (i < N && a[i] != (x & 15) && b[i] < 254)
        { FP_ROUND(loop); i++; }
    if (i == N || (a[i] > 3 && x)) b[0]++;
    return i; }
#include "frame.h"
