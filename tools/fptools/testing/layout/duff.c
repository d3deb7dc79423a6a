/* a switch into a loop */
#define NAME duff
#include "shape.h"
SHAPE(u32 x) { u32 n = x & 15, k = 0, s = x; if (!n) return 0;
    u32 rounds = (n + 3) / 4;
    FP_LOOP(loop, 4);
    switch (n & 3) {
    case 0: do { FP_ROUND(loop); s += a[k]; b[k++] = s; /* fall through */
    case 3:      s ^= a[k]; b[k++] = s; /* fall through */
    case 2:      s += b[k]; k++; /* fall through */
    case 1:      s = s * 3 + a[k]; k++;
            } while (--rounds); }
    return s + k; }
#include "frame.h"
