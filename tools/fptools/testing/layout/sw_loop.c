/* a switch with a way out of the loop, and cases that run on */
#define NAME sw_loop
#include "shape.h"
SHAPE(u32 x) { u32 s = x; FP_LOOP(i, 16); for (u32 i = 0; i < N; i++) { FP_ROUND(i);
        switch (a[i] & 7) {
        case 0: s += 3; break; case 1: s <<= 1; /* fall through */ case 2: s ^= b[i]; break;
        case 3: continue; case 4: if (s > 0x8000000) goto out; s++; /* fall through */ case 5: b[i] = s; break;
        case 7: if (i > 12) return s; s -= 7; break; default: s = ~s; }
        s += i; }
out:
    return s & 0xffffff; }
#include "frame.h"
