/* A loop of a goto, with a FP_ROUND that a jump leaves out. */
#include "case.h"
APART void f(u32 n) {
    u32 i = 0;
    FP_LOOP(i, 7);
    again: if (i >= (n & 7)) return;
    count++;
    if (a[i & 7] & 1) goto skip;
    FP_ROUND(i);
    skip: i++;
    a[i & 7] ^= n;
    goto again;
}
MAIN
