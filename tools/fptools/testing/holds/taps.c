/* A counted loop of TAPS rounds, of which the marks state 16. */
#include "flexpret.h"
static volatile uint32_t samples[40];
void main0(void)
{
    uint64_t next = fp_get_time();
    for (;;) {
        FP_MARK(work_begin);
        uint32_t sum = 0;
        FP_LOOP(i, 16);
        for (int i = 0; i < TAPS; i++)
            { FP_ROUND(i); sum += samples[i]; }
        FP_PORT = sum;
        FP_MARK(work_end);
        next += 10000;
        fp_wait_until(next);
    }
}
