/* Functions of a template with other claims. */
#include "case.h"
template <int N> static inline u32 each(u32 n) {
    u32 s = 0;
    FP_LOOP(i, N);
    for (u32 i = 0; i < n % (N + 1); i++) {
        FP_ROUND(i);
        s += a[i];
    }
    return s;
}
APART void f(u32 n) {
    count += each<4>(n) + each<9>(n);
    for (u32 k = 0; k < 3; k++) count += each<2>(n + k);
}
MAIN
