/* Loops that are unrolled, each in another one whose braces are spelled as digraphs. */
#include "flexpret.h"
#define SHAPE __attribute__((noinline)) static void
static volatile uint32_t tries;

SHAPE digraph(uint32_t n)
{
    for (;;) <%
        uint32_t i = 0;
        FP_LOOP(loop, 6);
        for (;;) { FP_ROUND(loop);
            if (i++ == 4)
                break;
            if ((tries++ & 63) == n)
                return;
        }
    %>
}
SHAPE back(uint32_t n)
{
    for (;;) <%
        uint32_t i = 0;
    FP_LOOP(loop, 5); again: FP_ROUND(loop);
        if ((tries++ & 63) == n)
            return;
        if (++i < 4)
            goto again;
    %>
}
SHAPE counted(uint32_t n)
{
    for (;;) <%
        { FP_LOOP(i, 4); for (uint32_t i = 0; i < 4; i++)
            { FP_ROUND(i); if ((tries++ & 63) == n)
                return; } }
    %>
}
void main0(void)
{
    for (;;) {
        FP_MARK(digraph_begin);
        digraph(FP_PORT);
        FP_MARK(digraph_end);
        FP_MARK(back_begin);
        back(FP_PORT);
        FP_MARK(back_end);
        FP_MARK(counted_begin);
        counted(FP_PORT);
        FP_MARK(counted_end);
    }
}
