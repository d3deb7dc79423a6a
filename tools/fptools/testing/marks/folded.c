/* Two functions of the same code with other claims. */
#include "case.h"
APART u32 g(u32 n) {
    u32 s = 0;
    FP_LOOP(i, 4);
    for (u32 i = 0; i < n; i++) {
        FP_ROUND(i);
        s = s * 3 + a[i];
    }
    return s;
}
APART u32 h(u32 n) {
    u32 s = 0;
    FP_LOOP(i, 15);
    for (u32 i = 0; i < n; i++) {
        FP_ROUND(i);
        s = s * 3 + a[i];
    }
    return s;
}
APART void f(u32 n) {
    n &= 15;
    count = n < 5 ? g(n) : h(n);
}
MAIN
