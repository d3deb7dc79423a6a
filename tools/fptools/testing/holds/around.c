/* Loops that are unrolled, each in another one, which the text of the source shows in no plain form. */
#include "flexpret.h"
#include "forever.h"
#define SHAPE __attribute__((noinline)) static void
static volatile uint32_t count, tries;
#ifndef ONCE
#define EVER for (;;)
#else
#define EVER
#endif
#define LOOP_BEGIN for (;;) {
#define LOOP_END }

SHAPE redefined(uint32_t n)
{
    EVER {
        FP_LOOP(i, 4);
        for (uint32_t i = 0; i < 4; i++)
            { FP_ROUND(i); if ((tries++ & 63) == n)
                return; }
    }
}
SHAPE halves(uint32_t n)
{
    LOOP_BEGIN
        count;
        FP_LOOP(i, 4);
        for (uint32_t i = 0; i < 4; i++)
            { FP_ROUND(i); if ((tries++ & 63) == n)
                return; }
    LOOP_END
}
SHAPE conditional(uint32_t n)
{
    for (;;) {
        if (n & 64) {
            count++;
#ifdef LOUD
        } else if (n & 128) {
            count--;
        }
#else
        }
#endif
        FP_LOOP(i, 4);
        for (uint32_t i = 0; i < 4; i++)
            { FP_ROUND(i); if ((tries++ & 63) == n)
                return; }
    }
}
SHAPE computed(uint32_t n)
{
    void *back = &&again;
again:
    FP_LOOP(i2, 4);
    for (uint32_t i = 0; i < 4; i++)
        { FP_ROUND(i2); if ((tries++ & 63) != n + i)
            goto *back; }
}
static void mutual(uint32_t n);
static inline __attribute__((always_inline)) void other(uint32_t n) { mutual(n); }
SHAPE mutual(uint32_t n)
{
    FP_LOOP(i3, 2);
    for (uint32_t i = 0; i < 2; i++) { FP_ROUND(i3);
        count += i;
        if (n & 31) {
            other(n - 1);
            return;
        }
    }
}
SHAPE unknown_macro(uint32_t n)
{
    FOREVER
        { FP_LOOP(i, 4); for (uint32_t i = 0; i < 4; i++)
            { FP_ROUND(i); if ((tries++ & 63) == n)
                return; } }
}
SHAPE unknown_begin(uint32_t n)
{
    MY_BEGIN;
        FP_LOOP(i2, 4);
        for (uint32_t i = 0; i < 4; i++)
            { FP_ROUND(i2); if ((tries++ & 63) == n)
                return; }
    MY_END;
}
SHAPE one_line(uint32_t n)
{
    FOREVER
        { FP_LOOP(i3, 4); for (uint32_t i = 0; i < 4; i++) { FP_ROUND(i3); if ((tries++ & 63) == n) return; } }
}
SHAPE one_line_do(uint32_t n)
{
    FOREVER {
        uint32_t i = 0;
        FP_LOOP(loop, 4);
        do { FP_ROUND(loop); if ((tries++ & 63) == n) return; } while (++i < 4);
    }
}
SHAPE marked(uint32_t n)
{
    uint32_t first = 1;
    for (;;) {
        if (first) {
            FP_MARK(marked_begin);
            first = 0;
        }
        FP_LOOP(i, 4);
        for (uint32_t i = 0; i < 4; i++)
            { FP_ROUND(i); if ((tries++ & 63) == n)
                goto out; }
    }
out:
    FP_MARK(marked_end);
    count++;
}
void main0(void)
{
    for (;;) {
        FP_MARK(redefined_begin);
        redefined(FP_PORT);
        FP_MARK(redefined_end);
        FP_MARK(halves_begin);
        halves(FP_PORT);
        FP_MARK(halves_end);
        FP_MARK(conditional_begin);
        conditional(FP_PORT);
        FP_MARK(conditional_end);
        FP_MARK(computed_begin);
        computed(FP_PORT);
        FP_MARK(computed_end);
        FP_MARK(mutual_begin);
        mutual(FP_PORT);
        FP_MARK(mutual_end);
        FP_MARK(unknown_macro_begin);
        unknown_macro(FP_PORT);
        FP_MARK(unknown_macro_end);
        FP_MARK(unknown_begin_begin);
        unknown_begin(FP_PORT);
        FP_MARK(unknown_begin_end);
        FP_MARK(one_line_begin);
        one_line(FP_PORT);
        FP_MARK(one_line_end);
        FP_MARK(one_line_do_begin);
        one_line_do(FP_PORT);
        FP_MARK(one_line_do_end);
        marked(FP_PORT);
    }
}
