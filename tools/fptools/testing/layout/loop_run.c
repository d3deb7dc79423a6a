/* Runs code of RV32IM, and counts how often each loop goes back to its head at most, each time that it is entered.

   loop_run IMAGE ENTRY STEPS LOOPS [PORT [TRACE]]

   LOOPS has a line for each loop, by rising heads: its head, the number of its words, and these, in hexadecimal. Calls are
   followed: a return leads on from the call. The run ends with a store to 0x40000004, or, where PORT is given, after so many
   steps. The port shows PORT, and for 0xffffffff another word each time. TRACE gets the address of each instruction, in four
   bytes. Writes a line for each loop: how often it goes back, and how often it was entered. Status 1 where the code does
   what no program here should. */
#include "rv32im.h"

#include <string.h>

#define MOST_LOOPS 4000
#define MOST_CALLS 4096
#define END 4u
#define ANY 0xffffffffu

static struct loop {
    uint32_t head;
    unsigned char has[SIZE / 4];
    long now, most, entries;
} *loops;

static int number, first_at[SIZE / 4]; /* by heads: the first loop's number, from 1 on */
static uint32_t port, drawn = 1, calls[MOST_CALLS];
static int depth, is_done;

static uint32_t shown(void)
{
    if (port != ANY)
        return port;
    drawn = drawn * 1664525u + 1013904223u;
    return drawn >> 13;
}

static void put(uint32_t offset, uint32_t value)
{
    (void)value;
    is_done |= offset == END;
}

static int read_loops(const char *name)
{
    FILE *file = fopen(name, "r");
    uint32_t head;
    int words;
    loops = calloc(MOST_LOOPS, sizeof *loops);
    while (file && loops && fscanf(file, "%x %d", &head, &words) == 2 && number < MOST_LOOPS) {
        struct loop *it = &loops[number++];
        it->head = head;
        if (!first_at[head / 4])
            first_at[head / 4] = number;
        for (uint32_t at; words-- && fscanf(file, "%x", &at) == 1;)
            it->has[at / 4] = 1;
    }
    return file && loops;
}

/* Counts an edge for the loops with this head. */
static void count(uint32_t from, uint32_t to)
{
    if (to >= SIZE || !first_at[to / 4])
        return;
    for (int k = first_at[to / 4] - 1; k < number && loops[k].head == to; k++) {
        struct loop *it = &loops[k];
        if (from < SIZE && it->has[from / 4])
            it->now++;
        else {
            it->now = 0;
            it->entries++;
        }
        it->most = it->now > it->most ? it->now : it->most;
    }
}

static void called(uint32_t from)
{
    if (depth == MOST_CALLS) {
        memmove(calls, calls + MOST_CALLS / 2, sizeof calls / 2);
        depth = MOST_CALLS / 2;
    }
    calls[depth++] = from;
}

/* The edge of an instruction that was done: a call has none, and a return one from its call. */
static void follow(uint32_t from)
{
    uint32_t word = code[from / 4], opcode = word & 127, rd = word >> 7 & 31, rs1 = word >> 15 & 31;
    if ((opcode == 0x6f || opcode == 0x67) && rd)
        called(from);
    else if (opcode == 0x67 && (rs1 == 1 || rs1 == 5) && depth && pc == calls[depth - 1] + 4)
        count(calls[--depth], pc);
    else
        count(from, pc);
}

int main(int argc, char **argv)
{
    if (argc < 5 || !read_image(argv[1]) || !read_loops(argv[4]))
        return 2;
    pc = (uint32_t)strtoul(argv[2], 0, 0);
    long steps = atol(argv[3]);
    port = argc > 5 ? (uint32_t)strtoul(argv[5], 0, 0) : 0;
    FILE *trace = argc > 6 ? fopen(argv[6], "wb") : 0;
    x[2] = DATA + SIZE;
    count(ANY, pc);
    while (!is_done && steps-- > 0) {
        uint32_t from = pc;
        if (trace)
            fwrite(&pc, sizeof pc, 1, trace);
        step();
        follow(from);
    }
    if (!is_done && argc <= 5)
        stop("too long", 0);
    for (int k = 0; k < number; k++)
        printf("%ld %ld\n", loops[k].most, loops[k].entries);
    return 0;
}
