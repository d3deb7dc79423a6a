/* A loop without marks behind one with marks. */
#include "case.h"
APART void f(u32 n) {
    FP_LOOP(i, 3);
    for (u32 i = 0; i < (n & 3); i++) {
        FP_ROUND(i);
        count += a[i];
    }
    for (u32 k = 0; k < (n & 63); k++) count += a[k] * 3;
}
MAIN
