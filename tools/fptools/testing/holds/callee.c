/* A called function with a loop, and one with a jump table. */
#include "flexpret.h"
static volatile uint32_t table[16];
__attribute__((noinline)) static uint32_t sum_of(void)
{
    uint32_t sum = 0;
    for (uint32_t i = 0; i < 16; i++)
        sum += table[i];
    return sum;
}
__attribute__((noinline)) static uint32_t chosen(uint32_t which)
{
    switch (which) {
    case 0: FP_PORT = 7; return 1;
    case 1: FP_PORT = 9; return table[1];
    case 2: FP_PORT = 1; return table[3] * 3;
    case 3: FP_PORT = 2; return table[2] * 5;
    case 4: FP_PORT = 4; return table[5] / 7;
    case 5: FP_PORT = 8; return table[7] / 9;
    default: return 0;
    }
}
void main0(void)
{
    for (;;) {
        FP_MARK(work_begin);
        FP_PORT = sum_of();
        FP_MARK(work_end);
        FP_MARK(choice_begin);
        FP_PORT = chosen(FP_PORT & 7);
        FP_MARK(choice_end);
    }
}
