/* Two loops that a compiler may interchange. */
#include "case.h"
static u32 p[25][18];
APART void f(u32 n) {
    FP_LOOP(c, 18);
    for (u32 c = 0; c < 18; c++) {
        FP_ROUND(c);
        FP_LOOP(r, 25);
        for (u32 r = 0; r < (n & 15) + 10; r++) {
            FP_ROUND(r);
            p[r][c] += 3;
        }
    }
}
MAIN
