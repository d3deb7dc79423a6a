/* A function that calls itself behind its loop. */
#include "case.h"
APART void g(u32 n) {
    u32 failed = 0;
    FP_LOOP(i, 1);
    for (u32 i = 0; i < 1 && a[i] != n; i++) {
        FP_ROUND(i);
        a[i] = n;
        if (tries != 0 && tries-- != 0) failed = 1;
    }
    if (failed) g(n + 1);
}
APART void f(u32 n) {
    tries = 20;
    g(n);
}
MAIN
