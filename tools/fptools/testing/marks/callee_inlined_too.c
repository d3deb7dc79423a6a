/* A function with a loop that is inlined and called. */
#include "case.h"
static u32 g(u32 n) {
    u32 s = 0;
    FP_LOOP(j, 7);
    for (u32 j = 0; j < (n & 7); j++) {
        FP_ROUND(j);
        s += a[j] * n;
    }
    return s;
}
APART u32 h(u32 n) {
    return g(n) + 1;
}
APART void f(u32 n) {
    FP_LOOP(i, 7);
    for (u32 i = 0; i < (n & 7); i++) {
        FP_ROUND(i);
        count += g(n >> i) + h(n >> 3);
    }
}
MAIN
