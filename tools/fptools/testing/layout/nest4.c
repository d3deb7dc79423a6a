/* four loops in one another */
#define NAME nest4
#include "shape.h"
SHAPE(u32 x) { u32 s = x, n = x & 3; FP_LOOP(i, 3); for (u32 i = 0; i < n; i++)
        { FP_ROUND(i); { FP_LOOP(j, 3); for (u32 j = 0; j < n; j++)
            { FP_ROUND(j); { FP_LOOP(k, 3); for (u32 k = j; k < n; k++)
            { FP_ROUND(k);
                u32 m = a[k] & 3;
                FP_LOOP(loop, 3);
                while (m--)
                    { FP_ROUND(loop); s += a[i + m] ^ b[j]; }
                b[k] = s;
            } } } } }
    return s; }
#include "frame.h"
