/* A switch with continue and return. */
#include "case.h"
APART void f(u32 n) {
    u32 s = n & 3;
    FP_LOOP(i, 16);
    for (u32 i = 0; i < 16; i++) {
        FP_ROUND(i);
        switch (s) {
            case 0: s = a[i] & 3;
            continue;
            case 1: if (a[i] == 9) return;
            s = 2;
            break;
            case 2: s = n >> i & 3;
            continue;
            default: s = 0;
        }
        count++;
    }
}
MAIN
