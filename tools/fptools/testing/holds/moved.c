/* Work between two marks that the compiler may move behind the second, where its result is used. */
#include "flexpret.h"
void main0(void)
{
    uint64_t next = fp_get_time();
    for (;;) {
        FP_MARK(work_begin);
        int32_t in = (int32_t)FP_PORT;
        int32_t x = in / 3, y = in % 11, z = x * x / 5 + y * y / 9, out = z / 7 + x / 13 + y;
        KEEP(out);
        FP_MARK(work_end);
        if (in & 1)
            FP_PORT = (uint32_t)out;
        next += 10000;
        fp_wait_until(next);
    }
}
