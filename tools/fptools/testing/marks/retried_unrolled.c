/* The same in a loop that is unrolled. */
#include "case.h"
APART void f(u32 n) {
    FP_LOOP(i, 2);
    for (u32 i = 0; i < 2; i++) {
        FP_ROUND(i);
        retry: count += n;
        if (tries++ & 31) goto retry;
    }
}
MAIN
