/* Loops that are unrolled, each in another one by macros, or by a jump that the text doesn't show. */
#include "flexpret.h"
#include "retry.h"
#define SHAPE __attribute__((noinline)) static void
#define BACK goto again
#define BACK_IF(x) if (x) BACK
static volatile uint32_t seen[4], tries;

SHAPE by_macro(uint32_t n)
{
    uint32_t failed;
again:
    failed = 0;
    FP_LOOP(i, 1);
    for (uint32_t i = 0; i < 1 && seen[i] != n + 7; i++) { FP_ROUND(i);
        seen[i] = n;
        if (tries != 0 && tries-- != 0)
            failed = 1;
    }
    BACK_IF(failed);
}
SHAPE by_far_macro(uint32_t n)
{
    uint32_t failed;
again:
    failed = 0;
    FP_LOOP(i, 1);
    for (uint32_t i = 0; i < 1 && seen[i] != n + 7; i++) { FP_ROUND(i);
        seen[i] = n;
        if (tries != 0 && tries-- != 0)
            failed = 1;
    }
    if (failed)
        RETRY;
}
SHAPE by_far_label(uint32_t n)
{
    uint32_t failed;
    LABEL(first)
    failed = 0;
    FP_LOOP(i, 1);
    for (uint32_t i = 0; i < 1 && seen[i] != n + 7; i++) { FP_ROUND(i);
        seen[i] = n;
        if (tries != 0 && tries-- != 0)
            failed = 1;
    }
    if (failed)
        goto first_label;
}
SHAPE by_far_halves(uint32_t n)
{
    uint32_t failed;
    REPEAT
        failed = 0;
        FP_LOOP(i, 1);
        for (uint32_t i = 0; i < 1 && seen[i] != n + 7; i++) { FP_ROUND(i);
            seen[i] = n;
            if (tries != 0 && tries-- != 0)
                failed = 1;
        }
    UNTIL(!failed);
}
SHAPE by_call(uint32_t n)
{
    uint32_t failed = 0;
    FP_LOOP(i, 1);
    for (uint32_t i = 0; i < 1 && seen[i] != n + 7; i++) { FP_ROUND(i);
        seen[i] = n;
        if (tries != 0 && tries-- != 0)
            failed = 1;
    }
    if (failed)
        by_call(n);
}
SHAPE in_header(uint32_t n)
{
    uint32_t failed;
again:
    FP_LOOP(i, 2);
    for (uint32_t i = 0;
         i < 2 && (failed = tries-- > 1);
         i++) {
        FP_ROUND(i);
        seen[i] = n;
    }
    if (failed)
        goto again;
}
void main0(void)
{
    for (;;) {
        tries = 40;
        FP_MARK(by_macro_begin);
        by_macro(FP_PORT);
        FP_MARK(by_macro_end);
        tries = 40;
        FP_MARK(by_far_macro_begin);
        by_far_macro(FP_PORT);
        FP_MARK(by_far_macro_end);
        tries = 40;
        FP_MARK(by_far_label_begin);
        by_far_label(FP_PORT);
        FP_MARK(by_far_label_end);
        tries = 40;
        FP_MARK(by_far_halves_begin);
        by_far_halves(FP_PORT);
        FP_MARK(by_far_halves_end);
        tries = 40;
        FP_MARK(by_call_begin);
        by_call(FP_PORT);
        FP_MARK(by_call_end);
        tries = 40;
        FP_MARK(in_header_begin);
        in_header(FP_PORT);
        FP_MARK(in_header_end);
    }
}
