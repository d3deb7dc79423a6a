/* FP_LOOP behind an asm whose word is a jump to its own end. */
#include "case.h"
APART void f(u32 n) {
    u32 x = 0, o = 0, c = n & 63;
    do {
        u32 i = 0, m = 2 + (n & 1);
        __asm__ volatile(".word 0x00c0006f\n\tnop\n\tnop" : "+r"(i), "+r"(m), "+r"(x));
        FP_LOOP(i, 3);
        do {
            FP_ROUND(i);
            i++;
            x += i;
        } while (i < m);
        o++;
    } while (o < c);
    count += x;
}
MAIN
