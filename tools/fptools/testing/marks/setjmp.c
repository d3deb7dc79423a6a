/* A jump back by __builtin_longjmp. */
#include "case.h"
static void *env[5];
APART void leap(void) {
    __builtin_longjmp(env, 1);
}
APART void f(u32 n) {
    tries = n & 15;
    __builtin_setjmp(env);
    FP_LOOP(i, 2);
    for (u32 i = 0; i < 2; i++) {
        FP_ROUND(i);
        if (tries && tries--) leap();
    }
}
MAIN
