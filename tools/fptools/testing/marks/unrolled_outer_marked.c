/* The same, where the outer loop is marked too. */
#include "case.h"
APART void f(u32 n) {
    FP_LOOP(o, 17);
    for (;;) {
        FP_ROUND(o);
        FP_LOOP(i, 4);
        for (u32 i = 0; i < 4; i++) {
            FP_ROUND(i);
            if ((tries++ & 63) == (n & 63)) return;
        }
    }
}
MAIN
