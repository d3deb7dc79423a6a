/* Marks that are hard to find: in an inlined function, by a macro, in a line with the work, and around work that isn't
   repeated. The compiler moves the work behind the mark at the end, where its result is used. */
#include "flexpret.h"
#define BEGIN FP_MARK(macro_begin)
#define END FP_MARK(macro_end)

static inline int32_t work(void)
{
    FP_MARK(inlined_begin);
    int32_t in = (int32_t)FP_PORT;
    int32_t x = in / 3, y = in % 11, z = x * x / 5 + y * y / 9;
    int32_t out = z / 7 + x / 13 + y;
    FP_MARK(inlined_end);
    return in & 1 ? out : 0;
}

static inline int32_t by_macro(void)
{
    BEGIN;
    int32_t in = (int32_t)FP_PORT;
    int32_t x = in / 3, y = in % 11, z = x * x / 5 + y * y / 9;
    int32_t out = z / 7 + x / 13 + y;
    END;
    return in & 1 ? out : 0;
}

void main0(void)
{
    FP_MARK(once_begin);
    int32_t in = (int32_t)FP_PORT;
    int32_t x = in / 3, y = in % 11, z = x * x / 5 + y * y / 9;
    FP_MARK(once_end);
    if (in & 1)
        FP_PORT = (uint32_t)(z / 7 + x / 13 + y);
    for (uint64_t next = fp_get_time();; fp_wait_until(next)) {
        FP_PORT = (uint32_t)work();
        FP_PORT = (uint32_t)by_macro();
        FP_MARK(line_begin); in = (int32_t)FP_PORT; x = in / 3; y = in % 11; FP_MARK(line_end);
        if (in & 1)
            FP_PORT = (uint32_t)(x / 13 + y);
        next += 10000;
    }
}
