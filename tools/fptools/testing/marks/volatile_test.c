/* A test of the port. */
#include "case.h"
APART void f(u32 n) {
    FP_LOOP(i, 5);
    for (u32 k = 5; FP_PORT & 3 && k--; ) {
        FP_ROUND(i);
    }
}
MAIN
