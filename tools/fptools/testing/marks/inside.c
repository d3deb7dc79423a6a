/* FP_LOOP within the round. */
#include "case.h"
APART void f(u32 n) {
    for (u32 i = 0; i < (n & 7); i++) {
        FP_LOOP(i, 1);
        FP_ROUND(i);
        count += a[i];
    }
}
MAIN
