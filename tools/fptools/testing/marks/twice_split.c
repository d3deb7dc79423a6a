/* A FP_ROUND on each side of a condition. */
#include "case.h"
APART void f(u32 n) {
    FP_LOOP(i, 7);
    for (u32 i = 0; i < (n & 7); i++) {
        if (a[i] & 1) {
            FP_ROUND(i);
            count += a[i];
        }  else {
            count -= n;
            FP_ROUND(i);
        }
    }
}
MAIN
