/* An insertion sort, with the sum of the moves of all rounds. Every fourth call sorts a falling list: the worst one. */
#include "case.h"
APART void f(u32 n) {
    u32 s[9];
    for (u32 i = 0; i < 9; i++)
        s[i] = a[i + (n & 31)];
    if (!(count++ & 3))
        for (u32 i = 0; i < 9; i++)
            s[i] = 9 - i;
    s[n % 9] = n;
    FP_LOOP(all, 36);
    FP_LOOP(i, 8);
    for (u32 i = 1; i < 9; i++) {
        FP_ROUND(i);
        u32 v = s[i], j = i;
        FP_LOOP(j, 8);
        while (j > 0 && s[j - 1] > v) {
            FP_ROUND(j);
            FP_ROUND(all);
            s[j] = s[j - 1];
            j--;
        }
        s[j] = v;
    }
    a[n & 63] = s[4];
}
MAIN
