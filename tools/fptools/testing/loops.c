/* A section of nested loops, a call, and a loop that nothing bounds, for the tests of fp_loops and fp_trace.
   Built by tests/data/build.sh. */
#include "flexpret.h"
typedef uint32_t word;
#define PORT (*(volatile word *)0x40000000u)
#define MARK(name) __asm__ volatile(".globl " #name "\n" #name ":" ::: "memory")

static volatile word table[4];

__attribute__((noinline)) word sum_of(word start)
{
    word sum = start;
    for (word index = 0; index < 4; index++)
        sum += table[index];
    return sum;
}

void main0(void)
{
    word seen = 0;
    MARK(grid_begin);
    for (word row = 0; row < 3; row++) {
        table[row] = row;
        FP_LOOP(column, 5);
        for (word column = PORT & 3; column < 5; column++) {
            FP_ROUND(column); seen += table[row]; }
    }
    MARK(grid_end);
    PORT = sum_of(seen);
    MARK(call_end);
    while (PORT != 7)
        seen++;
    MARK(wait_end);
    PORT = seen;
    for (;;)
        ;
}
