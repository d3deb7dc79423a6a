/* three loops with continue, break and return inside */
#define NAME triple
#include "shape.h"
SHAPE(u32 x) { u32 s = 0, n = (x & 3) + 1; FP_LOOP(i, 4); for (u32 i = 0; i < n; i++) { FP_ROUND(i);
        if (a[i] == 9) continue;
        FP_LOOP(j, 4);
        for (u32 j = i; j < 4; j++) { FP_ROUND(j);
            if (b[j] == 77) break;
            FP_LOOP(k, 4);
            for (u32 k = 0; k <= j; k++) { FP_ROUND(k);
                if ((a[k] ^ b[j]) == 0xffff) return s;
                if (a[k] & 1) continue;
                s += a[k] * b[i] + k; }
            if (s & 0x10000) { s >>= 3; break; } }
        b[i] = s; }
    return s; }
#include "frame.h"
