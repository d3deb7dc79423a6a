/* Loop marks on the host: they count. n is the number of a claim, and fp_most[n] the most passes of its FP_ROUND between
   two passes of its FP_LOOP. */
#include <stdint.h>
#include <stdio.h>
static uint32_t fp_now[4096], fp_most[4096];
#define FP_LOOP(name, n)                     \
    ;                                        \
    enum {                                   \
        fp_loop_##name = __COUNTER__,        \
        fp_claim_##name = (n)                \
    };                                       \
    fp_now[fp_loop_##name] = 0
#define FP_ROUND(name)                                             \
    __extension__({                                                \
        if (++fp_now[fp_loop_##name] > fp_most[fp_claim_##name])   \
            fp_most[fp_claim_##name] = fp_now[fp_loop_##name];     \
    })
