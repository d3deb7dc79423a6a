/* An inner loop that is left in its middle, in an endless one. */
#include "case.h"
APART void f(u32 n) {
    for (;;) {
        u32 i = 0;
        FP_LOOP(i, 5);
        for (;;) {
            FP_ROUND(i);
            if (i++ == 4) break;
            if ((tries++ & 63) == (n & 63)) return;
        }
    }
}
MAIN
