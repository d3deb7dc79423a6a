/* A jump over FP_LOOP, into the loop. */
#include "case.h"
APART void f(u32 n) {
    if (n & 64) goto in;
    FP_LOOP(i, 14);
    in: for (u32 i = 0; i < (n & 7); i++) {
        FP_ROUND(i);
        count += a[i];
    }
}
MAIN
