/* A jump to right behind FP_ROUND. */
#include "case.h"
APART void f(u32 n) {
    u32 i = 0;
    FP_LOOP(i, 15);
    for (;;) {
        if (n & 1) goto there;
        FP_ROUND(i);
        there: if (i++ >= (n & 15)) return;
        n >>= FP_PORT & 1;
    }
}
MAIN
