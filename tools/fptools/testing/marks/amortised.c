/* Two loops that share what they use up. */
#include "case.h"
APART void f(u32 n) {
    u32 at = 0;
    FP_LOOP(chars, 16);
    FP_LOOP(words, 16);
    while (at < 16) {
        FP_ROUND(words);
        while (at < 16 && a[at] & 1) {
            FP_ROUND(chars);
            at++;
        }
        a[at] ^= n;
        at++;
    }
}
MAIN
