/* A computed goto back to before FP_LOOP. */
#include "case.h"
APART void f(u32 n) {
    void *back = &&again;
    tries = n & 31;
    again:;
    FP_LOOP(i, 2);
    for (u32 i = 0; i < 2 && a[i] != n; i++) {
        FP_ROUND(i);
        a[i] = n;
        if (tries != 0 && tries-- != 0) goto *back;
    }
}
MAIN
