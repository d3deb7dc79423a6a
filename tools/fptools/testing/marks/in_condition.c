/* A FP_ROUND that only some rounds pass. */
#include "case.h"
APART void f(u32 n) {
    FP_LOOP(i, 4);
    for (u32 i = 0; i < (n & 7); i++) {
        if (i & 1) FP_ROUND(i);
        count += a[i];
    }
}
MAIN
