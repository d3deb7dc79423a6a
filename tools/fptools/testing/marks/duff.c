/* A switch into a loop. */
#include "case.h"
APART void f(u32 n) {
    u32 k = n & 31, r = (k + 3) / 4;
    if (!k) return;
    FP_LOOP(i, 8);
    switch (k & 3) {
        case 0: do {
            count++;
            case 3: count++;
            case 2: count++;
            case 1: count++;
            FP_ROUND(i);
        }  while (--r);
    }
}
MAIN
