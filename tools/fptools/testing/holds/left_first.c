/* A loop that is left at the begin of its body: 15 whole rounds go back 15 times. */
#include "flexpret.h"
static volatile uint32_t a[16], left;

static inline uint32_t scan(void)
{
    uint32_t s = 0;
    FP_LOOP(loop, 16);
    for (;;) { FP_ROUND(loop);
        if (left-- == 0)
            break;
        s += a[s & 15] * 3;
    }
    return s;
}

void main0(void)
{
    uint64_t next = fp_get_time();
    for (;;) {
        left = FP_PORT;
        FP_MARK(work_begin);
        FP_PORT = scan();
        FP_MARK(work_end);
        next += 10000;
        fp_wait_until(next);
    }
}
