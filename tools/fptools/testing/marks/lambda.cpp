/* A FP_LOOP in a lambda. */
#include "case.h"
APART void f(u32 n) {
    auto own = [&](u32 m) {
        FP_LOOP(i, 7);
        for (u32 i = 0; i < (m & 7); i++) {
            FP_ROUND(i);
            count += a[i];
        }
    };
    FP_LOOP(o, 3);
    for (u32 i = 0; i < 3; i++) {
        FP_ROUND(o);
        own(n >> i);
    }
}
MAIN
