// The motor of crates/example_plants as a plant of tools/fp_plant, whose load comes in step 1000.
// Numbers have 16 bits after the binary point. Build it by: cc -O2 -o motor examples/plant/motor.c
#include <stdint.h>
#include <stdio.h>

static int32_t limited(int64_t value) {
    return value > INT32_MAX ? INT32_MAX : value < INT32_MIN ? INT32_MIN : (int32_t)value;
}

// A value that approaches a target, with a time constant of 2 to the power of `bits` steps.
static int32_t lagging(int32_t value, int32_t target, int bits) {
    return limited((int64_t)value + (limited((int64_t)target - value) >> bits));
}

int main(void) {
    unsigned long long cycle;
    uint32_t word;
    int32_t current = 0, speed = 0;
    for (long step = 0; scanf("%llu %u", &cycle, &word) == 2; step++) {
        if (step > 0) { // the first exchange asks for the word at the start
            current = lagging(current, limited((int64_t)(int32_t)word - speed), 4);
            speed = lagging(speed, limited((int64_t)current - (step < 1000 ? 0 : 0x40000)), 6);
        }
        printf("%d\n", speed);
        fflush(stdout);
    }
}
