/* Runs code of RV32IM, one instruction at a time, and measures the executions of a section.

   quick_run IMAGE ENTRY BEGIN END VISITS [HEAD LAST]..

   IMAGE is 64 KiB of code and 64 KiB of data. Writes the cycles of the longest of so many executions where each fourth
   cycle is the thread's, those where each cycle is, the hash of what was stored at the port, and for each loop from
   HEAD to LAST how often it went back to its head, at most, before it was left. Status 1 where the code does what none
   of the shapes should. */
#include "rv32im.h"

#define MOST_STEPS 400000000L
#define MOST_LOOPS 64

static uint64_t hash = 1469598103934665603u;

static struct loop {
    uint32_t head, last;
    long now, most;
} loops[MOST_LOOPS];

static uint32_t shown(void)
{
    return 0;
}

static void put(uint32_t offset, uint32_t value)
{
    (void)offset;
    hash = (hash ^ value) * 1099511628211u;
}

static void count(struct loop *loop, uint32_t from)
{
    if (pc != loop->head)
        return;
    loop->now = from >= loop->head && from <= loop->last ? loop->now + 1 : 0;
    if (loop->now > loop->most)
        loop->most = loop->now;
}

int main(int argc, char **argv)
{
    if (argc < 6)
        return 2;
    if (!read_image(argv[1]))
        return 2;
    uint32_t begin = (uint32_t)strtoul(argv[3], 0, 0), end = (uint32_t)strtoul(argv[4], 0, 0);
    long visits = atol(argv[5]), issues = 0, cycles = 0, most_issues = 0, most_cycles = 0;
    int number = 0, is_inside = 0;
    for (int k = 6; k + 1 < argc && number < MOST_LOOPS; k += 2, number++) {
        loops[number].head = (uint32_t)strtoul(argv[k], 0, 0);
        loops[number].last = (uint32_t)strtoul(argv[k + 1], 0, 0);
    }
    pc = (uint32_t)strtoul(argv[2], 0, 0);
    x[2] = DATA + SIZE;
    for (long steps = 0; steps < MOST_STEPS; steps++) {
        if (pc == begin && !is_inside) {
            is_inside = 1;
            issues = cycles = 0;
        } else if (pc == end && is_inside) {
            is_inside = 0;
            most_issues = issues > most_issues ? issues : most_issues;
            most_cycles = cycles > most_cycles ? cycles : most_cycles;
            if (!--visits) {
                printf("%ld %ld %016llx", 4 * most_issues, most_cycles, (unsigned long long)hash);
                for (int k = 0; k < number; k++)
                    printf(" %ld", loops[k].most);
                puts("");
                return 0;
            }
        }
        uint32_t from = pc;
        int lag = step();
        issues++;
        cycles += lag;
        for (int k = 0; k < number; k++)
            count(&loops[k], from);
    }
    stop("too long", 0);
}
