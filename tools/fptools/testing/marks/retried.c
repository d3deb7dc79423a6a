/* A goto back within a round, which passes no FP_ROUND. */
#include "case.h"
APART void f(u32 n) {
    FP_LOOP(i, 3);
    for (u32 i = 0; i < (n & 3); i++) {
        FP_ROUND(i);
        retry: count += 5;
        if (tries++ & 31) goto retry;
    }
}
MAIN
