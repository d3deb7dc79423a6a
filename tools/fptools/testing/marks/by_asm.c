/* A loop of an asm within a round. */
#include "case.h"
APART void f(u32 n) {
    FP_LOOP(i, 3);
    for (u32 i = 0; i < (n & 3); i++) {
        FP_ROUND(i);
        __asm__ volatile("1: lw a5, 0(%0)\n\taddi a5, a5, 1\n\tsw a5, 0(%0)\n\tandi a5, a5, 31\n\tbnez a5, 1b" :: "r"(&tries) : "a5", "memory");
    }
}
MAIN
