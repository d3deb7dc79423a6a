/* A loop without a mark at the head of another one. */
#include "case.h"
APART void f(u32 n) {
    FP_LOOP(i, 8);
    for (u32 i = 0; i < 8; i++) {
        FP_ROUND(i);
        while (FP_PORT & 1) ;
        a[i] += 3;
    }
}
MAIN
