/* Two FP_ROUND in a round. */
#include "case.h"
APART void f(u32 n) {
    FP_LOOP(i, 14);
    for (u32 i = 0; i < (n & 7); i++) {
        FP_ROUND(i);
        count += a[i];
        FP_ROUND(i);
    }
}
MAIN
