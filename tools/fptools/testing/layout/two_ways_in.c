/* two states that lead to each other, entered at either */
#define NAME two_ways_in
#include "shape.h"
SHAPE(u32 x) { u32 i = 0, s = 0; FP_LOOP(step, 16); if (x & 2) goto even; else goto odd;
even: FP_ROUND(step);
    s += a[i]; b[i] = s;
    if (++i == N) return s;
    if (s & 1) goto odd;
    goto even;
odd: FP_ROUND(step);
    s = s * 3 + b[i];
    if (++i >= N) return s ^ 5;
    if (s & 2) goto even;
    goto odd; }
#include "frame.h"
