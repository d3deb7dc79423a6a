/* A loop with two entries. */
#include "case.h"
APART void f(u32 n) {
    u32 i = n & 7;
    FP_LOOP(i, 8);
    if (n & 8) goto in;
    for (;;) {
        FP_ROUND(i);
        count++;
        in: count += 2;
        if (i-- == 0) return;
    }
}
MAIN
