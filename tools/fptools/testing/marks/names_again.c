/* One name in two blocks. */
#include "case.h"
APART void f(u32 n) {
    {
        FP_LOOP(i, 3);
        for (u32 i = 0; i < (n & 3); i++) {
            FP_ROUND(i);
            count++;
        }
    }
    {
        FP_LOOP(i, 15);
        for (u32 i = 0; i < (n & 15); i++) {
            FP_ROUND(i);
            count += 2;
        }
    }
}
MAIN
