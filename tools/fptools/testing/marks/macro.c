/* A loop by a macro. */
#include "case.h"
#define EACH(name, n, k) FP_LOOP(name, n); for (u32 v_##name = 0; v_##name < (k); v_##name++)
APART void f(u32 n) {
    EACH(x, 7, n & 7) {
        FP_ROUND(x);
        EACH(y, 3, n >> 3 & 3) {
            FP_ROUND(y);
            count++;
        }
    }
}
MAIN
