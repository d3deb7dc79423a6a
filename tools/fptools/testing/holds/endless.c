/* Loops that are unrolled, without a test in their header, each in another one that the text shows in no plain form. */
#include "flexpret.h"
#include "forever.h"
#define SHAPE __attribute__((noinline)) static void
static volatile uint32_t count, tries;
#define LOOP_BEGIN for (;;) {
#define LOOP_END }
#ifndef ONCE
#define EVER for (;;)
#else
#define EVER
#endif

SHAPE redefined(uint32_t n)
{
    EVER {
        uint32_t i = 0;
        FP_LOOP(loop, 6);
        while (1) { FP_ROUND(loop);
            if (i++ == 4)
                break;
            if ((tries++ & 63) == n)
                return;
        }
    }
}
SHAPE unknown_block(uint32_t n)
{
    FOREVER {
        uint32_t i = 0;
        FP_LOOP(loop, 6);
        for (;;) { FP_ROUND(loop);
            if (i++ == 4)
                break;
            if ((tries++ & 63) == n)
                return;
        }
    }
}
SHAPE unknown_macro(uint32_t n)
{
    uint32_t i = 0;
    FOREVER
        { FP_LOOP(i, 6); for (i = 0;;) { FP_ROUND(i);
            if (i++ == 4)
                break;
            if ((tries++ & 63) == n)
                return;
        } }
}
SHAPE unknown_halves(uint32_t n)
{
    MY_BEGIN;
    uint32_t i = 0;
    FP_LOOP(loop, 6);
    for (;;) { FP_ROUND(loop);
        if (i++ == 4)
            break;
        if ((tries++ & 63) == n)
            return;
    }
    MY_END;
}
SHAPE halves_endless(uint32_t n)
{
    LOOP_BEGIN
        uint32_t i = 0;
        FP_LOOP(loop, 6);
        for (;;) { FP_ROUND(loop);
            if (i++ == 4)
                break;
            if ((tries++ & 63) == n)
                return;
        }
    LOOP_END
}
SHAPE halves_goto(uint32_t n)
{
    LOOP_BEGIN
        uint32_t i = 0;
    FP_LOOP(loop, 5); again: FP_ROUND(loop);
        if ((tries++ & 63) == n)
            return;
        if (++i < 4)
            goto again;
    LOOP_END
}
SHAPE conditional(uint32_t n)
{
    for (;;) {
        if (n & 64) {
            count++;
#ifdef LOUD
        } else if (n & 128) {
            count--;
        }
#else
        }
#endif
        uint32_t i = 0;
        FP_LOOP(loop, 6);
        for (;;) { FP_ROUND(loop);
            if (i++ == 4)
                break;
            if ((tries++ & 63) == n)
                return;
        }
    }
}
SHAPE computed(uint32_t n)
{
    void *back = &&again;
again:
    count;
    uint32_t i = 0;
    FP_LOOP(loop2, 6);
    for (;;) { FP_ROUND(loop2);
        if (i++ == 4)
            break;
        if ((tries++ & 63) == n)
            return;
    }
    goto *back;
}
void main0(void)
{
    for (;;) {
        FP_MARK(redefined_begin);
        redefined(FP_PORT);
        FP_MARK(redefined_end);
        FP_MARK(unknown_block_begin);
        unknown_block(FP_PORT);
        FP_MARK(unknown_block_end);
        FP_MARK(unknown_macro_begin);
        unknown_macro(FP_PORT);
        FP_MARK(unknown_macro_end);
        FP_MARK(unknown_halves_begin);
        unknown_halves(FP_PORT);
        FP_MARK(unknown_halves_end);
        FP_MARK(halves_endless_begin);
        halves_endless(FP_PORT);
        FP_MARK(halves_endless_end);
        FP_MARK(halves_goto_begin);
        halves_goto(FP_PORT);
        FP_MARK(halves_goto_end);
        FP_MARK(conditional_begin);
        conditional(FP_PORT);
        FP_MARK(conditional_end);
        FP_MARK(computed_begin);
        computed(FP_PORT);
        FP_MARK(computed_end);
    }
}
