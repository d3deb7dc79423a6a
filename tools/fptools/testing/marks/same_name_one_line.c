/* Two FP_LOOP of one name in one line. */
#include "case.h"
#define TIMES(n, k, body) { FP_LOOP(it, n); for (u32 v = 0, e = (k); v < e; v++) { FP_ROUND(it); body } }
APART void f(u32 n) {
    TIMES(3, n & 3, TIMES(3, n >> 2 & 3, count++;))
}
MAIN
