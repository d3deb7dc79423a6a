/* goto out of two loops at once */
#define NAME goto_out
#include "shape.h"
SHAPE(u32 x) { u32 i, j, s = 0; FP_LOOP(i, 4); for (i = 0; i < 4; i++)
        { FP_ROUND(i); { FP_LOOP(j, 4); for (j = 0; j < 4; j++) { FP_ROUND(j);
            if (a[4 * i + j] == (x & 15)) goto found;
            if (b[4 * j + i] > 252) goto wrong;
            s += a[4 * i + j] ^ b[4 * j + i]; } } }
    return s;
found:
    return 100 * i + j;
wrong:
    b[0] = s;
    return 7; }
#include "frame.h"
