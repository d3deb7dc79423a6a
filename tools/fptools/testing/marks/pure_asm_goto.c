/* A loop by an asm goto. */
#include "case.h"
APART void f(u32 n) {
    u32 i = 0;
    FP_LOOP(i, 8);
    again: FP_ROUND(i);
    count++;
    i++;
    __asm__ goto("bltu %0, %1, %l2" :: "r"(i), "r"(n & 7) :: again);
}
MAIN
