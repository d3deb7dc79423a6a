/* Thread 0, hard: a current controller at 50 kHz, in fixed point.

   Each period it reads a sample of the current at its port, and writes a duty there. A current above the limit switches
   the bridge off until the reset. */
#include "flexpret.h"

/* In nanoseconds: 50 kHz. */
#define PERIOD 20000

/* Milliamperes. The port shows the current in its lower half, with a sign. */
#define WANTED 5000
#define MOST_CURRENT 12000

/* The duty of the bridge, 0 to FULL. */
#define FULL 4095

/* Gains with 8 bits after the binary point. */
#define PROPORTIONAL 90
#define INTEGRAL 12
#define MOST_INTEGRAL (FULL << 8)

#define TAPS 4

static int32_t samples[TAPS], integral;
static uint32_t filled, is_off;

static inline int32_t limited(int32_t value, int32_t low, int32_t high)
{
    return value < low ? low : value > high ? high : value;
}

/* The mean of the last samples. */
static int32_t filtered(int32_t sample)
{
    int32_t sum = 0;
    for (int tap = TAPS - 1; tap > 0; tap--)
        samples[tap] = samples[tap - 1];
    samples[0] = sample;
    if (filled < TAPS)
        filled++;
    FP_LOOP(tap, TAPS);
    for (uint32_t tap = 0; tap < filled; tap++) {
        FP_ROUND(tap);
        sum += samples[tap];
    }
    return sum / (int32_t)filled;
}

/* The duty for a sample. */
__attribute__((noinline)) static uint32_t duty_for(int16_t sample)
{
    int32_t current = filtered(sample);
    int32_t error = WANTED - current;
    if (sample > MOST_CURRENT)
        is_off = 1;
    if (is_off)
        return 0;
    integral = limited(integral + INTEGRAL * error, 0, MOST_INTEGRAL);
    return (uint32_t)limited((PROPORTIONAL * error + integral) >> 8, 0, FULL);
}

void main0(void)
{
    uint64_t next = fp_get_time();
    for (;;) {
        next += PERIOD;
        fp_wait_until(next);
        FP_MARK(sense);
        FP_PORT = duty_for((int16_t)FP_PORT);
        FP_MARK(driven);
    }
}
