/* A loop that is left before its FP_ROUND. */
#include "case.h"
APART void f(u32 n) {
    u32 left = n & 15;
    FP_LOOP(i, 15);
    for (;;) {
        if (left-- == 0) break;
        FP_ROUND(i);
        count += a[count & 15] * 3;
    }
}
MAIN
