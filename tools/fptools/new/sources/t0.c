#include "flexpret.h"

#define PERIOD 20000 /* nanoseconds */
#define SAMPLES 8

static uint32_t samples[SAMPLES];

/* The mean of the last samples. */
static uint32_t mean(uint32_t sample)
{
    uint32_t sum = sample;
    FP_LOOP(shift, SAMPLES - 1);
    for (int at = SAMPLES - 1; at > 0; at--) {
        FP_ROUND(shift);
        samples[at] = samples[at - 1];
        sum += samples[at];
    }
    samples[0] = sample;
    return sum / SAMPLES;
}

/* Reads a sample from the port of thread 0, and shows the mean there. */
__attribute__((noinline)) static void step(void)
{
    FP_PORT = mean(FP_PORT);
}

void main0(void)
{
    uint64_t next = fp_get_time();
    for (;;) {
        FP_MARK(step0_begin);
        step();
        FP_MARK(step0_end);
        next += PERIOD;
        fp_wait_until(next);
    }
}
