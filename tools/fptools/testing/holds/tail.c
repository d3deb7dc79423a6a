/* A function that ends by a call of another, which -foptimize-sibling-calls makes a jump; and one that nothing calls. */
#include "flexpret.h"
static volatile uint32_t a[4];
__attribute__((noinline)) static uint32_t second(uint32_t x) { return a[x & 3] * 3; }
__attribute__((noinline)) static uint32_t first(uint32_t x) { return second(a[x & 3]); }
uint32_t uncalled(uint32_t x) { return a[x & 3] / 7; }
void main0(void)
{
    for (;;)
        FP_PORT = first(FP_PORT);
}
