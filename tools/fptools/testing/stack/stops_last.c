/* A function that never returns, called before the function that calls all. */
#include "flexpret.h"

__attribute__((noreturn, noinline)) void fails(uint32_t a)
{
    volatile uint32_t words[100];
    words[a % 10] = 3;
    for (;;)
        FP_PORT = words[a % 10];
}

__attribute__((noinline)) uint32_t checked(uint32_t a)
{
    if (a == 6)
        fails(a);
    volatile uint32_t words[3];
    words[a % 3] = 2;
    return words[0];
}

void main0(void)
{
    for (;;)
        FP_PORT = checked(FP_PORT & 15);
}
