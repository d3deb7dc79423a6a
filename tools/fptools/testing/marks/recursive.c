/* A function that calls itself last becomes a loop. */
#include "case.h"
APART void f(u32 n) {
    n &= 63;
    FP_LOOP(i, 2);
    for (u32 i = 0; i < 2; i++) {
        FP_ROUND(i);
        count += i;
        if (n & 31) {
            f(n - 1);
            return;
        }
    }
}
MAIN
