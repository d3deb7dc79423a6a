/* A goto back to before FP_LOOP, out of a round. */
#include "case.h"
APART void f(u32 n) {
    again:;
    FP_LOOP(i, 4);
    for (u32 i = 0; i < 4; i++) {
        FP_ROUND(i);
        if ((tries++ & 63) != (n & 3) + i) goto again;
    }
}
MAIN
