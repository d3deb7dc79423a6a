/* A loop around a call of a function with a loop. */
#include "case.h"
APART void g(u32 n) {
    FP_LOOP(j, 7);
    for (u32 j = 0; j < (n & 7); j++) {
        FP_ROUND(j);
        count += a[j];
    }
}
APART void f(u32 n) {
    FP_LOOP(i, 7);
    for (u32 i = 0; i < (n & 7); i++) {
        FP_ROUND(i);
        g(n >> 3);
    }
}
MAIN
