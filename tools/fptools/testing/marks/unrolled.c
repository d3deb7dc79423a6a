/* An endless loop around one that is unrolled, without a mark. */
#include "case.h"
APART void f(u32 n) {
    for (;;) {
        FP_LOOP(i, 4);
        for (u32 i = 0; i < 4; i++) {
            FP_ROUND(i);
            if ((tries++ & 63) == (n & 63)) return;
        }
    }
}
MAIN
