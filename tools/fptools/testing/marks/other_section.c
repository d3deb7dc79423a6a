/* An asm with code of another section, between FP_ROUND and a label to which a jump leads. */
#include "case.h"
APART void f(u32 n) {
    u32 i = 0;
    FP_LOOP(i, 15);
    for (;;) {
        if (n & 1) goto there;
        FP_ROUND(i);
        __asm__ volatile(".pushsection .text.apart, \"ax\"\n\tnop\n\tret\n\t.popsection");
    there:
        if (i++ >= (n & 15)) return;
        n >>= FP_PORT & 1;
    }
}
MAIN
