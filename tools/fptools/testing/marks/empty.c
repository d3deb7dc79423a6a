/* A body with a FP_ROUND only. */
#include "case.h"
APART void f(u32 n) {
    FP_LOOP(i, 31);
    for (u32 k = n & 31; k--; ) FP_ROUND(i);
}
MAIN
