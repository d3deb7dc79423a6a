/* A deadline that is armed before the section, and a handler that goes on after 50 rounds. */
#include "flexpret.h"
__attribute__((interrupt("machine"), aligned(4))) static void on_trap(void)
{
    for (int i = 0; i < 50; i++)
        (void)FP_PORT;
}
void main0(void)
{
    fp_write_csr(mtvec, (uint32_t)on_trap);
    for (;;) {
        fp_exception_on_expire(fp_get_time() + 300);
        FP_MARK(work_begin);
        FP_PORT = FP_PORT / 3 / 5 / 7 / 9 / 11;
        FP_MARK(work_end);
        fp_deactivate_exception();
    }
}
