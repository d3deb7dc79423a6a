/* The instructions of RV32IM, one at a time, on 64 KiB of code and 64 KiB of data. What includes this defines what the port
   shows, and what becomes of a store to it, by its offset. */
#include <stdint.h>
#include <stdio.h>
#include <stdlib.h>

#define SIZE 65536u
#define DATA 0x20000000u
#define PORT 0x40000000u
#define PORTS 8u /* bytes from PORT on */

/* The least cycles from an instruction's issue to the next one's: docs/FORMATS.md, "Where a word leads". */
enum { LAG_PLAIN = 1, LAG_LATE = 2, LAG_JUMP = 3 };

static uint32_t code[SIZE / 4], data[SIZE / 4], x[32], pc;

static uint32_t shown(void);
static void put(uint32_t offset, uint32_t value);

static void stop(const char *why, uint32_t value)
{
    printf("%s %x at %x\n", why, value, pc);
    exit(1);
}

static uint32_t load(uint32_t address)
{
    address &= ~3u;
    if (address < SIZE)
        return code[address / 4];
    if (address - DATA < SIZE)
        return data[(address - DATA) / 4];
    if (address < PORT || address >= PORT + PORTS)
        stop("bad load", address);
    return shown();
}

static void store(uint32_t address, uint32_t value, int size)
{
    if (address - PORT < PORTS) {
        put(address - PORT, value);
        return;
    }
    if (address - DATA >= SIZE)
        stop("bad store", address);
    uint32_t shift = 8 * (address & 3), mask = (size == 4 ? ~0u : size == 2 ? 0xffffu : 0xffu) << shift;
    uint32_t *word = &data[(address - DATA) / 4];
    *word = (*word & ~mask) | (value << shift & mask);
}

static uint32_t loaded(uint32_t word, uint32_t address)
{
    uint32_t value = load(address) >> 8 * (address & 3);
    switch (word >> 12 & 7) {
    case 0: return (uint32_t)(int8_t)value;
    case 1: return (uint32_t)(int16_t)value;
    case 2: return value;
    case 4: return value & 0xff;
    case 5: return value & 0xffff;
    }
    stop("bad load word", word);
    return 0;
}

static uint32_t computed(int funct3, int is_other, uint32_t p, uint32_t q)
{
    switch (funct3) {
    case 0: return is_other ? p - q : p + q;
    case 1: return p << (q & 31);
    case 2: return (int32_t)p < (int32_t)q;
    case 3: return p < q;
    case 4: return p ^ q;
    case 5: return is_other ? (uint32_t)((int32_t)p >> (q & 31)) : p >> (q & 31);
    case 6: return p | q;
    }
    return p & q;
}

static uint32_t multiplied(int funct3, uint32_t p, uint32_t q)
{
    int overflows = p == 0x80000000u && q == ~0u;
    switch (funct3) {
    case 0: return p * q;
    case 1: return (uint32_t)((int64_t)(int32_t)p * (int32_t)q >> 32);
    case 2: return (uint32_t)((int64_t)(int32_t)p * (int64_t)(uint64_t)q >> 32);
    case 3: return (uint32_t)((uint64_t)p * q >> 32);
    case 4: return !q ? ~0u : overflows ? p : (uint32_t)((int32_t)p / (int32_t)q);
    case 5: return q ? p / q : ~0u;
    case 6: return !q ? p : overflows ? 0 : (uint32_t)((int32_t)p % (int32_t)q);
    }
    return q ? p % q : p;
}

static int is_taken(uint32_t word, uint32_t p, uint32_t q)
{
    switch (word >> 12 & 7) {
    case 0: return p == q;
    case 1: return p != q;
    case 4: return (int32_t)p < (int32_t)q;
    case 5: return (int32_t)p >= (int32_t)q;
    case 6: return p < q;
    case 7: return p >= q;
    }
    stop("bad branch", word);
    return 0;
}

static int32_t branch_offset(uint32_t word)
{
    return (int32_t)((word >> 8 & 15) << 1 | (word >> 25 & 63) << 5 | (word >> 7 & 1) << 11) - (int32_t)((word >> 31) << 12);
}

static int32_t jump_offset(uint32_t word)
{
    return (int32_t)((word >> 21 & 1023) << 1 | (word >> 20 & 1) << 11 | (word >> 12 & 255) << 12) - (int32_t)((word >> 31) << 20);
}

/* Does the instruction at pc, and returns its lag. */
static int step(void)
{
    if (pc >= SIZE)
        stop("bad pc", pc);
    uint32_t word = code[pc / 4], p = x[word >> 15 & 31], q = x[word >> 20 & 31], next = pc + 4, value = 0;
    uint32_t rd = word >> 7 & 31, upper = word & ~4095u;
    int32_t immediate = (int32_t)word >> 20;
    int funct3 = word >> 12 & 7, lag = LAG_PLAIN;
    switch (word & 127) {
    case 0x37: value = upper; break;
    case 0x17: value = pc + upper; break;
    case 0x6f: value = next; next = pc + (uint32_t)jump_offset(word); lag = LAG_JUMP; break;
    case 0x67: value = next; next = (p + (uint32_t)immediate) & ~1u; lag = LAG_JUMP; break;
    case 0x63:
        rd = 0;
        if (is_taken(word, p, q)) {
            next = pc + (uint32_t)branch_offset(word);
            lag = LAG_JUMP;
        }
        break;
    case 0x03: value = loaded(word, p + (uint32_t)immediate); lag = LAG_LATE; break;
    case 0x23:
        store(p + (uint32_t)(((int32_t)word >> 25) * 32 + (int32_t)rd), q, 1 << funct3);
        rd = 0;
        break;
    case 0x13: value = computed(funct3, funct3 == 5 && word >> 30 & 1, p, (uint32_t)immediate); break;
    case 0x33:
        if (word >> 25 == 1) {
            value = multiplied(funct3, p, q);
            lag = LAG_LATE;
        } else
            value = computed(funct3, word >> 30 & 1, p, q);
        break;
    case 0x0f: rd = 0; break;
    default: stop("bad word", word);
    }
    if (rd)
        x[rd] = value;
    pc = next;
    return lag;
}

/* Reads an image: code and data. Returns whether it is whole. */
static int read_image(const char *name)
{
    FILE *file = fopen(name, "rb");
    return file && fread(code, 1, SIZE, file) == SIZE && fread(data, 1, SIZE, file) == SIZE;
}
