/* Thread 0, hard: a PID controller in fixed point, with a deadline.

   Each period it reads the measured value at its port, and puts the drive there. A step that isn't done at its
   deadline is counted, and goes on late. */
#include "flexpret.h"

/* A number with 16 bits behind the point. */
typedef int32_t fixed;
#define FIXED(number) ((fixed)((number) * 65536))

static inline fixed times(fixed a, fixed b)
{
    return (fixed)((int64_t)a * b >> 16);
}

static inline fixed limited(fixed value, fixed limit)
{
    return value > limit ? limit : value < -limit ? -limit : value;
}

/* In nanoseconds. */
#define PERIOD 8000
#define DEADLINE 6000

#define SAMPLES 8
#define WANTED FIXED(16)
#define MOST_INTEGRAL FIXED(100)

static const struct {
    fixed proportional, integral, derivative;
} gain = { FIXED(1.5), FIXED(0.125), FIXED(0.25) };

static fixed samples[SAMPLES];
static uint32_t next_sample;
static fixed integral, last_error;
static volatile uint32_t late_steps;

/* The mean of the last samples, with this one. */
static inline fixed smoothed(fixed sample)
{
    fixed sum = 0;
    samples[next_sample++ % SAMPLES] = sample;
    for (int index = 0; index < SAMPLES; index++)
        sum += samples[index];
    return sum / SAMPLES;
}

static inline fixed drive_for(fixed measured)
{
    fixed error = WANTED - measured;
    integral = limited(integral + times(gain.integral, error), MOST_INTEGRAL);
    fixed change = error - last_error;
    last_error = error;
    return times(gain.proportional, error) + integral + times(gain.derivative, change);
}

/* The deadline passed within a step. Any other trap is a fault of the program: stand still there. */
__attribute__((interrupt("machine"), aligned(4))) static void on_trap(void)
{
    while (fp_read_csr(mcause) != FP_CAUSE_EXPIRED)
        ;
    late_steps++;
}

void main0(void)
{
    fp_write_csr(mtvec, (uint32_t)on_trap);
    uint64_t start = fp_get_time();
    for (;;) {
        FP_MARK(step_begin);
        fp_exception_on_expire(start + DEADLINE);
        FP_PORT = (uint32_t)drive_for(smoothed((fixed)FP_PORT));
        fp_deactivate_exception();
        start += PERIOD;
        FP_MARK(step_end);
        fp_wait_until(start);
    }
}
