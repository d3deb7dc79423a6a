/* Thread 0, hard: a PID controller that holds the speed of a motor, in fixed point.

   Each period it loads the speed from its port, and stores the voltage there. */
#include "../c/flexpret.h"

/* A number with 16 bits after the binary point. */
typedef int32_t fixed;
#define FIXED(number) ((fixed)((number) * 65536))

/* In nanoseconds. */
#define PERIOD 8000

#define SET_POINT FIXED(16)
#define MOST_INTEGRAL FIXED(100)

static const struct {
    fixed proportional, integral, derivative;
} gain = { FIXED(2), FIXED(0.25), FIXED(1) };

static fixed integral, last_error;

static inline fixed times(fixed a, fixed b)
{
    return (fixed)((int64_t)a * b >> 16);
}

static inline fixed limited(fixed value, fixed limit)
{
    return value > limit ? limit : value < -limit ? -limit : value;
}

static inline fixed voltage_for(fixed speed)
{
    fixed error = SET_POINT - speed;
    integral = limited(integral + times(gain.integral, error), MOST_INTEGRAL);
    fixed change = error - last_error;
    last_error = error;
    return times(gain.proportional, error) + integral + times(gain.derivative, change);
}

void main0(void)
{
    uint64_t start = fp_get_time();
    for (;;) {
        FP_PORT = (uint32_t)voltage_for((fixed)FP_PORT);
        start += PERIOD;
        fp_wait_until(start);
    }
}
