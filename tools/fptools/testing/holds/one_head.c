/* Two loops with one head. Nothing bounds the inner one, which ends when the port is even. */
#include "flexpret.h"
static uint32_t samples[8];
void main0(void)
{
    uint64_t next = fp_get_time();
    for (;;) {
        FP_MARK(work_begin);
        for (int i = 0; i < 8; i++) {
            while (FP_PORT & 1)
                ;
            samples[i] += 3;
        }
        FP_MARK(work_end);
        next += 10000;
        fp_wait_until(next);
    }
}
