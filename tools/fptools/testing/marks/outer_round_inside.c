/* The outer claim's FP_ROUND in the inner loop. */
#include "case.h"
APART void f(u32 n) {
    FP_LOOP(o, 49);
    for (u32 i = 0; i < (n & 7); i++) {
        for (u32 j = 0; j < (n >> 3 & 7); j++) {
            FP_ROUND(o);
            count += a[j];
        }
    }
}
MAIN
