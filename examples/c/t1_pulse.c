/* Thread 1, hard: a pulse at its port, 500 nanoseconds in each 2,000. It waits in place, and so keeps its turns. */
#include "flexpret.h"

#define PERIOD 2000
#define WIDTH 500

static uint32_t pulses;

void main1(void)
{
    uint64_t start = fp_get_time() + PERIOD;
    for (;; start += PERIOD) {
        fp_delay_until(start);
        FP_PORT = 1;
        pulses++;
        fp_delay_until(start + WIDTH);
        FP_PORT = 0;
    }
}
