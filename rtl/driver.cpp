// Runs the core in Verilator over a loaded setup, and records what it does.
//
//     flexpret_core LOADED --cycles N [--csv FILE [--thread I]] [--vcd FILE] [--dump FILE]
//
// `simulate` makes LOADED of a setup and its image. Each line of it has a key and three hexadecimal
// numbers; `read_setup` below has the keys. --csv writes a row for each event that has retired after
// N cycles, with --thread of one thread only. --vcd writes the same signals in each cycle, --dump the
// state as `flexpret dump` does. A - is standard output. Arguments +NAME=VALUE at the end are for
// $value$plusargs in the core. The status is 0; 2 for wrong arguments, or a file that can't be read
// or written.
#include "Vflexpret.h"
#include "verilated.h"
#ifdef STATE
#include "Vflexpret___024root.h"
#endif
#include <cerrno>
#include <cinttypes>
#include <cstdint>
#include <cstdio>
#include <cstdlib>
#include <cstring>
#include <string>
#include <vector>

namespace {

constexpr int THREADS = 8, ALL = -1;
constexpr uint64_t NEVER = ~uint64_t{0};
constexpr uint32_t LOADED_WORDS = 16384;  // of each scratchpad, when it is cleared
constexpr uint32_t DATA_START = 0x20000000;

[[noreturn]] void fail(const std::string &text) {
    fprintf(stderr, "flexpret_core: %s\n", text.c_str());
    exit(2);
}

FILE *opened(const char *name, const char *mode) {
    if (!strcmp(name, "-")) return stdout;
    FILE *file = fopen(name, mode);
    if (!file) fail(std::string(name) + ": " + strerror(errno));
    return file;
}

void closed(FILE *file, const char *name) {
    if (ferror(file) | (file == stdout ? fflush(file) : fclose(file)))
        fail(std::string(name) + ": " + strerror(errno));
}

// The word that a port shows from a cycle on.
struct Input {
    uint64_t cycle;
    uint32_t word;
};

// A word of the image: the scratchpad, and the word's number in it.
struct Placed {
    bool is_data;
    uint32_t at, word;
};

struct Setup {
    uint32_t period = 0, version = 1, confined = 0, permit = 0;
    uint32_t slots = 0, modes = 0, iregions = 0, dregions = 0, entry[THREADS] = {};
    uint64_t unplug[THREADS];
    std::vector<Input> inputs[THREADS];
    std::vector<Placed> words;
};

Setup read_setup(const char *name) {
    Setup setup;
    for (auto &cycle : setup.unplug) cycle = NEVER;
    FILE *file = opened(name, "r");
    char key[16];
    uint64_t a, b, c;
    int fields;
    while ((fields = fscanf(file, "%15s %" SCNx64 " %" SCNx64 " %" SCNx64, key, &a, &b, &c)) == 4) {
        std::string k = key;
        if (k == "period") setup.period = a;
        else if (k == "version") setup.version = a;
        else if (k == "slots") setup.slots = a;
        else if (k == "modes") setup.modes = a;
        else if (k == "iregions") setup.iregions = a;
        else if (k == "dregions") setup.dregions = a;
        else if (k == "confined") setup.confined = a;
        else if (k == "permit") setup.permit = a;
        else if (k == "entry" && a < THREADS) setup.entry[a] = b;
        else if (k == "unplug" && a < THREADS) setup.unplug[a] = b;
        else if (k == "input" && a < THREADS) setup.inputs[a].push_back({b, uint32_t(c)});
        else if (k == "word" && b < LOADED_WORDS)
            setup.words.push_back({a != 0, uint32_t(b), uint32_t(c)});
        else fail(std::string(name) + ": " + k + " is no key, or its numbers are out of range");
    }
    if (fields != EOF || !setup.period) fail(std::string(name) + " is no loaded setup");
    closed(file, name);
    return setup;
}

void tick(Vflexpret &core) {
    core.clk = 1;
    core.eval();
    core.clk = 0;
    core.eval();
}

void reset(Vflexpret &core, const Setup &setup) {
    core.version_2 = setup.version == 2;
    core.period = setup.period;
    core.confined = setup.confined;
    core.permit = setup.permit;
    core.slots_at_reset = setup.slots;
    core.modes_at_reset = setup.modes;
    core.iregions_at_reset = setup.iregions;
    core.dregions_at_reset = setup.dregions;
    for (int k = 0; k < THREADS; k++) core.entries[k] = setup.entry[k];
    core.rst = 1;
    core.load_i = core.load_d = 1;
    core.load_word = 0;
    for (uint32_t at = 0; at < LOADED_WORDS; at++) {
        core.load_at = at;
        tick(core);
    }
    for (const Placed &word : setup.words) {
        core.load_i = !word.is_data;
        core.load_d = word.is_data;
        core.load_at = word.at;
        core.load_word = word.word;
        tick(core);
    }
    core.load_i = core.load_d = 0;
    tick(core);
    core.rst = 0;
}

// The ports: each shows 0 until its first input, and keeps the last word that was stored to it.
class Ports {
public:
    explicit Ports(const Setup &setup) : setup(setup) {}

    // Sets the words of a cycle.
    void show(Vflexpret &core, uint64_t cycle) {
        if (cycle != change) return;
        change = NEVER;
        uint32_t there = 0;
        for (int k = 0; k < THREADS; k++) {
            const auto &inputs = setup.inputs[k];
            while (next[k] < inputs.size() && inputs[next[k]].cycle <= cycle)
                core.port_in[k] = inputs[next[k]++].word;
            if (next[k] < inputs.size()) until(inputs[next[k]].cycle);
            if (cycle < setup.unplug[k]) {
                there |= 1u << k;
                until(setup.unplug[k]);
            }
        }
        core.port_there = there;
    }

    void take(const Vflexpret &core) {
        if (core.port_store) latch[core.port_thread] = core.port_word;
    }

    uint32_t latch[THREADS] = {};

private:
    void until(uint64_t cycle) {
        if (cycle < change) change = cycle;
    }

    const Setup &setup;
    size_t next[THREADS] = {};  // the first input that isn't shown yet
    uint64_t change = 0;        // the next cycle in which an input or a plug changes
};

// ----------------------------------------------------------------------------------------- records

struct Signal {
    const char *name;
    int bits;
    bool is_decimal;
};

// In the order of the columns. docs/FLEXPRET.md has their meaning.
constexpr Signal SIGNALS[] = {
    {"cycle", 64, true},    {"valid", 1, true},  {"thread", 3, true}, {"pc", 32, false},
    {"word", 32, false},    {"rd", 5, true},     {"value", 32, false}, {"size", 3, true},
    {"address", 32, false}, {"data", 32, false}, {"csr_write", 1, true}, {"csr", 12, false},
    {"trap", 1, true},      {"cause", 5, true},  {"target", 32, false}, {"sleep", 1, true},
};
constexpr int COUNT = sizeof SIGNALS / sizeof SIGNALS[0];

void sample(const Vflexpret &core, uint64_t (&values)[COUNT]) {
    const uint64_t sampled[COUNT] = {
        core.cycle, core.valid, core.thread, core.pc,   core.word,      core.rd,  core.value,
        core.size,  core.address, core.data, core.csr_write, core.csr, core.trap, core.cause,
        core.target, core.sleep,
    };
    memcpy(values, sampled, sizeof values);
}

class Csv {
public:
    // The rows of a thread, or of all if it is ALL.
    Csv(const char *name, int thread) : name(name), thread(thread), file(opened(name, "w")) {
        setvbuf(file, nullptr, _IOFBF, 1 << 16);
        for (int k = 0; k < COUNT; k++) fprintf(file, "%s%s", k ? "," : "", SIGNALS[k].name);
        fputc('\n', file);
    }

    void add(const Vflexpret &core) {
        if (!core.valid || (thread != ALL && core.thread != thread)) return;
        uint64_t values[COUNT];
        sample(core, values);
        char row[256], *end = row;
        for (int k = 0; k < COUNT; k++) {
            if (k) *end++ = ',';
            end = SIGNALS[k].is_decimal ? decimal(end, values[k])
                                        : hexadecimal(end, values[k], SIGNALS[k].bits);
        }
        *end++ = '\n';
        fwrite(row, 1, end - row, file);
    }

    void close() { closed(file, name); }

private:
    static char *decimal(char *end, uint64_t value) {
        char digits[20];
        int count = 0;
        do digits[count++] = char('0' + value % 10);
        while (value /= 10);
        while (count) *end++ = digits[--count];
        return end;
    }

    static char *hexadecimal(char *end, uint64_t value, int bits) {
        for (int at = bits - 4; at >= 0; at -= 4) *end++ = "0123456789abcdef"[value >> at & 15];
        return end;
    }

    const char *name;
    int thread;
    FILE *file;
};

class Vcd {
public:
    Vcd(const char *name, uint32_t period) : name(name), period(period), file(opened(name, "w")) {
        setvbuf(file, nullptr, _IOFBF, 1 << 16);
        fprintf(file, "$timescale 1ns $end\n$scope module flexpret $end\n");
        for (int k = 0; k < COUNT; k++)
            fprintf(file, "$var wire %d %c %s $end\n", SIGNALS[k].bits, char('!' + k),
                    SIGNALS[k].name);
        fprintf(file, "$upscope $end\n$enddefinitions $end\n");
    }

    void add(const Vflexpret &core) {
        uint64_t values[COUNT];
        sample(core, values);
        fprintf(file, "#%" PRIu64 "\n", core.cycle * period);
        for (int k = 0; k < COUNT; k++) {
            if (begun && values[k] == last[k]) continue;
            if (SIGNALS[k].bits == 1) {
                fprintf(file, "%d%c\n", int(values[k]), char('!' + k));
                continue;
            }
            fputc('b', file);
            for (int at = SIGNALS[k].bits - 1; at >= 0; at--)
                fputc(values[k] >> at & 1 ? '1' : '0', file);
            fprintf(file, " %c\n", char('!' + k));
        }
        memcpy(last, values, sizeof last);
        begun = true;
    }

    void close() { closed(file, name); }

private:
    const char *name;
    uint32_t period;
    FILE *file;
    uint64_t last[COUNT] = {};
    bool begun = false;
};

// ------------------------------------------------------------------------------------------- state

#ifdef STATE
#define IN_CORE(name) (core.rootp->flexpret__DOT__##name)

// What the dump shows of stage W: the turn of cycle n - 5 after n cycles.
struct Retired {
    bool turn = false, issued = false;
    int thread = 0;
    uint32_t pc = 0, word = 0;
};

void stage(FILE *file, char name, bool turn, bool issued, int thread, uint32_t pc, uint32_t word) {
    if (!turn) fprintf(file, "%c -\n", name);
    else if (!issued) fprintf(file, "%c T%d flushed\n", name, thread);
    else fprintf(file, "%c T%d %08x %08x\n", name, thread, pc, word);
}

void dump_thread(FILE *file, const Vflexpret &core, int k) {
    for (int x = 0; x < 32; x += 8) {
        fprintf(file, "T%d x%02d", k, x);
        for (int j = 0; j < 8; j++) fprintf(file, " %08x", IN_CORE(bank)[32 * k + x + j]);
        fputc('\n', file);
    }
    fprintf(file, "T%d csr %08x %08x %08x %08x\n", k, IN_CORE(mtvec)[k], IN_CORE(mscratch)[k],
            IN_CORE(mepc)[k], IN_CORE(mcause)[k]);
    char moment[20] = "-";
    if (IN_CORE(is_armed) >> k & 1)
        snprintf(moment, sizeof moment, "%016" PRIx64, uint64_t(IN_CORE(armed)[k]));
    fprintf(file, "T%d armed %s sleep %016" PRIx64 " high %08x\n", k, moment,
            uint64_t(IN_CORE(wake)[k]), IN_CORE(high)[k]);
}

void dump(const char *name, const Vflexpret &core, const Setup &setup, const Ports &ports,
          uint64_t cycles, const Retired &w) {
    FILE *file = opened(name, "w");
    fprintf(file, "cycles %" PRIu64 "\n", cycles);
    if (IN_CORE(f_turn)) fprintf(file, "F T%d\n", IN_CORE(f_thread));
    else fprintf(file, "F -\n");
    const bool no_word = IN_CORE(d_expiry) || IN_CORE(d_refused);
    stage(file, 'D', IN_CORE(d_turn), IN_CORE(d_issue), IN_CORE(d_thread), IN_CORE(d_pc),
          no_word ? 0 : IN_CORE(d_word));
    stage(file, 'E', IN_CORE(e_turn), IN_CORE(e_issue), IN_CORE(e_thread), IN_CORE(e_pc),
          IN_CORE(e_word));
    stage(file, 'M', core.turn, core.issued, core.thread, core.pc, core.word);
    stage(file, 'W', w.turn, w.issued, w.thread, w.pc, w.word);
    fprintf(file, "slots %08x\nmodes %08x\ndregions %08x\niregions %08x\n", IN_CORE(slots),
            IN_CORE(modes), IN_CORE(dregions), IN_CORE(iregions));
    for (int k = 0; k < THREADS; k++) {
        dump_thread(file, core, k);
        // A store of the issue of cycle c is done in M, which is cycle c + 3.
        if (setup.unplug[k] != NEVER && cycles >= setup.unplug[k] + 4)
            fprintf(file, "T%d latch open\n", k);
        else fprintf(file, "T%d latch %08x\n", k, ports.latch[k]);
    }
    for (uint32_t at = 0; at < (setup.version == 2 ? 16384u : 4096u); at += 8) {
        uint32_t any = 0;
        for (int j = 0; j < 8; j++) any |= IN_CORE(dmem)[at + j];
        if (!any) continue;
        fprintf(file, "[%08x]", DATA_START + 4 * at);
        for (int j = 0; j < 8; j++) fprintf(file, " %08x", IN_CORE(dmem)[at + j]);
        fputc('\n', file);
    }
    closed(file, name);
}
#endif

struct Arguments {
    const char *setup = nullptr, *csv = nullptr, *vcd = nullptr, *dump = nullptr;
    uint64_t cycles = 0;
    int thread = ALL;
};

Arguments read_arguments(int argc, char **argv) {
    Arguments given;
    while (argc > 1 && argv[argc - 1][0] == '+') argc--;
    if (argc < 2 || argc % 2)
        fail("LOADED --cycles N [--csv FILE [--thread I]] [--vcd FILE] [--dump FILE]");
    given.setup = argv[1];
    for (int k = 2; k < argc; k += 2) {
        std::string option = argv[k];
        if (option == "--cycles") given.cycles = strtoull(argv[k + 1], nullptr, 10);
        else if (option == "--csv") given.csv = argv[k + 1];
        else if (option == "--vcd") given.vcd = argv[k + 1];
        else if (option == "--dump") given.dump = argv[k + 1];
        else if (option == "--thread") given.thread = atoi(argv[k + 1]);
        else fail(option + " is no option");
    }
#ifndef STATE
    if (given.dump) fail("--dump: this build doesn't show the state");
#endif
    return given;
}

}  // namespace

int main(int argc, char **argv) {
    const Arguments given = read_arguments(argc, argv);
    const Setup setup = read_setup(given.setup);
    Verilated::commandArgs(argc, argv);
    Vflexpret core;
    Ports ports(setup);
    reset(core, setup);
    Csv *csv = given.csv ? new Csv(given.csv, given.thread) : nullptr;
    Vcd *vcd = given.vcd ? new Vcd(given.vcd, setup.period) : nullptr;
#ifdef STATE
    Retired w;
#endif
    for (uint64_t cycle = 0; cycle < given.cycles; cycle++) {
        ports.show(core, cycle);
        if (csv) csv->add(core);
        if (vcd) vcd->add(core);
        ports.take(core);
#ifdef STATE
        w = {bool(core.turn), bool(core.issued), core.thread, core.pc, core.word};
#endif
        tick(core);
    }
    if (csv) csv->close();
    if (vcd) vcd->close();
#ifdef STATE
    if (given.dump) dump(given.dump, core, setup, ports, given.cycles, w);
#endif
    core.final();
    return 0;
}
