/* Work of thread 1, which thread 0 can't fetch. */
#include "flexpret.h"
void main1(void)
{
    for (;;) {
        FP_MARK(work_begin);
        FP_PORT = FP_PORT * 3;
        FP_MARK(work_end);
    }
}
