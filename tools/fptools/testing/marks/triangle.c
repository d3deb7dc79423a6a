/* Two claims for two loops: the sum of all inner rounds. */
#include "case.h"
APART void f(u32 n) {
    FP_LOOP(all, 28);
    FP_LOOP(o, 7);
    for (u32 i = 0; i < (n & 7); i++) {
        FP_ROUND(o);
        for (u32 j = 0; j <= i; j++) {
            FP_ROUND(all);
            count++;
        }
    }
}
MAIN
