#include "flexpret.h"

static volatile uint32_t out;

static uint32_t one(uint32_t x)
{
    return x + 1;
}

static uint32_t three(uint32_t x)
{
    return x * 3;
}

static uint32_t (*volatile which)(uint32_t);

void main0(void)
{
    for (;;) {
        which = FP_PORT ? one : three;
        out = which(2);
    }
}
