/* A function that never returns, called as another function's last word. */
#include "flexpret.h"

__attribute__((noreturn, noinline)) static void fails(uint32_t a)
{
    volatile uint32_t words[10];
    words[a % 10] = 3;
    for (;;)
        FP_PORT = words[a % 10];
}

__attribute__((noinline)) static uint32_t checked(uint32_t a)
{
    if (a == 6)
        fails(a);
    return a * 3;
}

__attribute__((noinline)) static uint32_t other(uint32_t a)
{
    volatile uint32_t words[200];
    words[a % 10] = 3;
    return words[1];
}

void main0(void)
{
    FP_PORT = other(3);
    for (;;)
        FP_PORT = checked(FP_PORT & 15);
}
