#include "flexpret.h"

#define TAPS 8
#define LAGS 4

enum command { STOP, RUN, BRAKE, TUNE };

static const uint32_t weights[TAPS] = { 1, 2, 5, 8, 8, 5, 2, 1 };
static uint32_t samples[TAPS], filled;
static uint32_t last;

/* The weighted mean of the last samples. */
__attribute__((noinline)) static uint32_t filtered(uint32_t sample)
{
    uint32_t sum = 0;
    for (int tap = TAPS - 1; tap > 0; tap--)
        samples[tap] = samples[tap - 1];
    samples[0] = sample;
    if (filled < TAPS)
        filled++;
    FP_LOOP(tap, TAPS);
    for (uint32_t tap = 0; tap < filled; tap++) {
        FP_ROUND(tap);
        sum += weights[tap] * samples[tap];
    }
    return sum / 32;
}

/* The shift at which the samples are most like themselves. */
static uint32_t best_lag(void)
{
    uint32_t best = 0, most = 0;
    for (uint32_t lag = 1; lag <= LAGS; lag++) {
        uint32_t sum = 0;
        for (uint32_t tap = 0; tap < TAPS - LAGS; tap++)
            sum += samples[tap] * samples[tap + lag];
        if (sum > most) {
            most = sum;
            best = lag;
        }
    }
    return best;
}

/* The drive of a period: the upper half of a word is a command, the lower one a sample. */
__attribute__((noinline)) static uint32_t step(uint32_t word)
{
    uint32_t speed = filtered(word & 0xffff);
    switch (word >> 16) {
    case RUN:
        last = speed * 3;
        break;
    case BRAKE:
        last = last > speed ? (last - speed) / 3 : 0;
        break;
    case TUNE:
        last = best_lag();
        break;
    default:
        last = 0;
    }
    return last;
}

void main0(void)
{
    uint64_t next = fp_get_time();
    for (;;) {
        FP_MARK(step_begin);
        FP_PORT = step(FP_PORT);
        FP_MARK(step_end);
        next += 20000;
        fp_wait_until(next);
    }
}
