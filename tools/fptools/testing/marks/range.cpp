/* A loop over a range. */
#include "case.h"
APART void f(u32 n) {
    static const u32 w[5] = {1, 2, 3, 4, 5};
    FP_LOOP(i, 5);
    for (u32 x : w) {
        FP_ROUND(i);
        if (x == (n & 7)) break;
        count += x;
    }
}
MAIN
