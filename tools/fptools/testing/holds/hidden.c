/* Loops whose comments seem to be of them: of a line with code above, of another loop, or with a part of a round more. */
#include "flexpret.h"
#include "wait.h"
#define SHAPE __attribute__((noinline)) static void
static volatile uint32_t count, tries, left;
static uint32_t a[64];

SHAPE above(uint32_t n)
{
 FP_LOOP(i, 4); for (uint32_t i = 0; i < (n & 3); i++) { FP_ROUND(i); count += a[i]; }
    for (uint32_t k = 0; k < n; k++) count += a[k] * 3;
}
SHAPE left_inside(uint32_t n)
{
    left = n + 1;
    FP_LOOP(loop, 16);
    for (;;) { FP_ROUND(loop);
        if (--left == 0)
            break;
        n++;
    }
}
SHAPE retried(uint32_t n)
{
    FP_LOOP(i, 3);
    for (uint32_t i = 0; i < (n & 3); i++) { FP_ROUND(i);
    retry:
        count += 5;
        if (tries++ & 31)
            goto retry;
    }
}
SHAPE retried_unrolled(uint32_t n)
{
    FP_LOOP(i, 2);
    for (uint32_t i = 0; i < 2; i++) { FP_ROUND(i);
    retry:
        count += n;
        if (tries++ & 31)
            goto retry;
    }
}
SHAPE restarted(uint32_t n)
{
again:
    FP_LOOP(i, 4);
    for (uint32_t i = 0; i < 4; i++)
        { FP_ROUND(i); if ((tries++ & 63) != n + i)
            goto again; }
}
SHAPE by_asm(uint32_t n)
{
    FP_LOOP(i, 3);
    for (uint32_t i = 0; i < (n & 3); i++) { FP_ROUND(i);
        __asm__ volatile("1: lw a5, 0(%0)\n\taddi a5, a5, 1\n\tsw a5, 0(%0)\n\tandi a5, a5, 31\n\tbnez a5, 1b"
                         :: "r"(&tries) : "a5", "memory");
    }
}
SHAPE by_macro(uint32_t n)
{
    FP_LOOP(i, 3);
    for (uint32_t i = 0; i < (n & 3); i++) { FP_ROUND(i);
        WAIT_UNTIL_EVEN();
    }
}
SHAPE unrolled(uint32_t n)
{
    for (;;) {
        FP_LOOP(i, 4);
        for (uint32_t i = 0; i < 4; i++)
            { FP_ROUND(i); if ((tries++ & 63) == n)
                return; }
    }
}
SHAPE recursive(uint32_t n)
{
    FP_LOOP(i, 2);
    for (uint32_t i = 0; i < 2; i++) { FP_ROUND(i);
        count += i;
        if (n & 31) {
            recursive(n - 1);
            return;
        }
    }
}
#include "hidden.inl"
void main0(void)
{
    for (;;) {
        FP_MARK(above_begin);
        above(FP_PORT);
        FP_MARK(above_end);
        FP_MARK(left_inside_begin);
        left_inside(FP_PORT);
        FP_MARK(left_inside_end);
        FP_MARK(retried_begin);
        retried(FP_PORT);
        FP_MARK(retried_end);
        FP_MARK(retried_unrolled_begin);
        retried_unrolled(FP_PORT);
        FP_MARK(retried_unrolled_end);
        FP_MARK(restarted_begin);
        restarted(FP_PORT);
        FP_MARK(restarted_end);
        FP_MARK(by_asm_begin);
        by_asm(FP_PORT);
        FP_MARK(by_asm_end);
        FP_MARK(by_macro_begin);
        by_macro(FP_PORT);
        FP_MARK(by_macro_end);
        FP_MARK(unrolled_begin);
        unrolled(FP_PORT);
        FP_MARK(unrolled_end);
        FP_MARK(recursive_begin);
        recursive(FP_PORT);
        FP_MARK(recursive_end);
        FP_MARK(included_begin);
        included(FP_PORT);
        FP_MARK(included_end);
    }
}
