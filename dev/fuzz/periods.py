"""Compares the periods that fp_budget bounds with runs: programs in assembler and C, frames of one
to eight slots, odd clocks.

For each program it takes the bound as the distance of two moments. Then fp_budget has to answer
`holds`, and in a run of 1,000 periods none may be longer than the bound, and no wait late.

    python3 -m dev.fuzz.periods --count 200 --seed 1

A row: the number and kind of a program, its frame (T a slot of the thread, S of others), the
nanoseconds of a cycle, the bound, the longest period of the run, and their ratio. Status 1 where
a promise is broken."""

import argparse
import os
import re
import shutil
import subprocess
import sys
import tempfile
from dataclasses import dataclass, field
from pathlib import Path
from random import Random

from dev.program import TOP


from fptools.budget.files import Budget, PeriodOf, Result, Verdict
from fptools.budget.judge import Judge
from fptools.files.elf import Program
from fptools.files.image import read_image
from fptools.files.lint import read_valid
from fptools.period.runs import PeriodRuns
from fptools.period.periods import results_of
from fptools.program.calls import Flexpret
from fptools.files.setup import Setup
from fptools.files.sources import Sources

PERIODS = 1000
CLOCKS = (1, 3, 7, 10, 13, 20, 27, 33, 41)
LEVELS = ("-O1", "-O2", "-Os", "-O3")
FIRST_NS = 3_000_000  # the first distance of two moments that is tried, more than each bound
LEAD_NS = 200_000  # from the begin to the moment that is one distance before the first
MOST_INPUTS = 3000
SETUP = """period = {clock}
image = "{folder}/own.fpx"
slots = [{slots}]
i_regions = ["T0", "T1", "T2", "T3", "T4", "T5", "T6", "readonly"]
d_regions = ["T0", "T1", "T2", "T3", "T4", "T5", "T6", "shared"]
[[thread]]
id = 0
mode = "hard"
entry = 0
confined = true
inputs = [{inputs}]
"""


@dataclass
class Code:
    """Draws the lines of a program in assembler: x15 is the port, x14 the thread's own data."""

    random: Random
    lines: list[str] = field(default_factory=list)
    labels: int = 0

    def label(self) -> str:
        self.labels += 1
        return f"l{self.labels}"

    def add(self, *lines: str) -> None:
        self.lines += lines

    def plain(self) -> None:
        """Some words without a jump."""
        words = (
            "addi x5, x5, 3", "xor x6, x6, x5", "lw x7, 0(x14)", "sw x6, 0(x14)", "mul x8, x5, x6", "lw x9, 0(x15)",
            "divu x8, x6, x5", "sw x8, 0(x15)", "csrw mscratch, x5", "slli x6, x5, 1", "gt x25", "fence",
        )  # fmt: skip
        self.add(*(self.random.choice(words) for _ in range(self.random.randrange(1, 7))))

    def choice(self, depth: int) -> None:
        """A case that an input decides on; it may have another one."""
        other, end = self.label(), self.label()
        bit = 1 << self.random.randrange(4)
        self.add(
            "lw x16, 0(x15)",
            f"andi x16, x16, {bit}",
            f"{self.random.choice(('beq', 'bne'))} x16, x0, {other}",
        )
        self.work(depth - 1)
        if self.random.random() < 0.6:
            self.add(f"j {end}", f"{other}: addi x0, x0, 0")
            self.work(depth - 1)
            self.add(f"{end}: addi x0, x0, 0")
        else:
            self.add(f"{other}: addi x0, x0, 0")

    def loop(self, depth: int) -> None:
        """A loop of a number of rounds, which may be left early."""
        register = f"x{20 + depth}"
        head, out = self.label(), self.label()
        self.add(f"addi {register}, x0, {self.random.randrange(2, 7)}", f"{head}: addi x0, x0, 0")
        self.work(depth - 1)
        if self.random.random() < 0.3:
            self.add("lw x16, 0(x15)", "andi x16, x16, 8", f"bne x16, x0, {out}")
        self.add(
            f"addi {register}, {register}, -1",
            f"bne {register}, x0, {head}",
            f"{out}: addi x0, x0, 0",
        )

    def work(self, depth: int) -> None:
        for _ in range(self.random.randrange(1, 4)):
            kinds = [self.plain, self.plain] + [
                lambda: self.choice(depth),
                lambda: self.loop(depth),
            ] * (depth > 0)
            self.random.choice(kinds)()

    def nest(self, depth: int) -> None:
        """Loops around a wait, each with work around what is inside; one may be left early."""
        if depth == 0:
            self.work(1)
            self.wait()
            self.work(1)
            return
        register, head, out = f"x{25 + depth}", self.label(), self.label()
        rounds = self.random.randrange(2, 6)
        self.add(f"addi {register}, x0, {rounds}", f"{head}: addi x0, x0, 0")
        self.work(1)
        self.nest(depth - 1)
        if self.random.random() < 0.5:
            self.add("lw x16, 0(x15)", "andi x16, x16, 4", f"bne x16, x0, {out}")
        self.work(1)
        self.add(f"addi {register}, {register}, -1", f"bne {register}, x0, {head}")
        self.add(f"{out}: addi x0, x0, 0")
        self.work(1)

    def wait(self) -> None:
        """The next moment, with its carry, and the wait for it."""
        self.add("add x10, x10, x12", "sltu x13, x10, x12", "add x11, x11, x13")
        if self.random.random() < 0.5:
            self.plain()
        self.add("wu x11, x10")

    def wait_in_work(self) -> None:
        """A wait with work around it."""
        self.work(1)
        self.wait()
        self.work(1)


def assembler(random: Random, ns: int) -> str:
    """A program whose loop waits at its end, at its start, in its middle, in a case, or in one of
    two."""
    code = Code(random)
    code.add("lui x14, 0x20000", "lui x15, 0x40000", f"li x12, {ns}", "gt x10", "gth x11")
    code.add(
        f"li x17, {LEAD_NS}",
        "add x10, x10, x17",
        "sltu x13, x10, x17",
        "add x11, x11, x13",
        "head: addi x0, x0, 0",
    )
    shape = random.randrange(6)
    if shape in (0, 2):
        code.work(2)
    if shape < 3:
        code.wait()
    if shape in (1, 2):
        code.work(2)
    if shape == 3:  # one of two waits
        code.work(1)
        code.add("lw x16, 0(x15)", "andi x16, x16, 1", "beq x16, x0, other")
        code.wait_in_work()
        code.add("j head", "other: addi x0, x0, 0")
        code.wait_in_work()
    if shape == 4:  # waits in an inner loop, with work around it
        code.work(1)
        code.add("addi x26, x0, 3", "inner: addi x0, x0, 0")
        code.wait_in_work()
        code.add("addi x26, x26, -1", "bne x26, x0, inner")
        code.work(1)
    if shape == 5:
        code.nest(random.randrange(1, 4))
    code.add("j head")
    return "\n".join(code.lines) + "\n"


C_HEAD = """#include "flexpret.h"
static uint32_t table[8];
static const uint32_t gain[8] = { 3, 1, 4, 1, 5, 9, 2, 6 };
__attribute__((noinline)) static uint32_t mean(uint32_t x)
{
    uint32_t sum = 0;
    FP_LOOP(move, 7);
    for (int i = 7; i > 0; i--) {
        FP_ROUND(move);
        table[i] = table[i - 1];
    }
    table[0] = x;
    FP_LOOP(tap, 8);
    for (int i = 0; i < 8; i++) {
        FP_ROUND(tap);
        sum += gain[i] * table[i];
    }
    return sum / 31;
}
"""
C_LOOPS = (
    "    for (;;) { WORK next += P; fp_wait_until(next); }",
    "    for (;;) { next += P; fp_wait_until(next); WORK }",
    "    for (;;) { WORK fp_wait_until(next); WORK next += P; }",
    "    for (;;) { next += P; if (FP_PORT & 1) { WORK fp_wait_until(next); } else { WORK fp_wait_until(next); WORK } }",
    "    for (;;) { WORK tick(); WORK }",
    "    for (;;) { tick(); if (FP_PORT & 4) continue; WORK }",
    "    for (;;) { FP_LOOP(k, 3); for (int k = 0; k < 3; k++) { FP_ROUND(k); WORK next += P; fp_wait_until(next); } WORK }",
)


def statement(random: Random, depth: int) -> str:
    kind = random.randrange(7)
    if kind == 0:
        return "FP_PORT = mean(FP_PORT);"
    if kind == 1 and depth:
        return f"if (FP_PORT & {1 << random.randrange(4)}) {{ {statement(random, depth - 1)} }} else {{ {statement(random, depth - 1)} }}"
    if kind == 2 and depth:
        rounds = random.randrange(2, 9)
        return (
            f"{{ FP_LOOP(i, {rounds}); for (uint32_t i = 0; i < {rounds}; i++) "
            f"{{ FP_ROUND(i); {statement(random, 0)} }} }}\n"
        )
    if kind == 3:
        return f"table[{random.randrange(8)}] ^= FP_PORT * {random.randrange(3, 99)};"
    if kind == 4:
        return f"FP_PORT = table[FP_PORT % 8] / {random.randrange(3, 50)};"
    return f"table[{random.randrange(8)}] += {random.randrange(1, 5000)};"


def in_c(random: Random, ns: int) -> str:
    """A program in C whose loop waits somewhere, also in a function."""
    loop = random.choice(C_LOOPS)
    while "WORK" in loop:
        loop = loop.replace(
            "WORK", " ".join(statement(random, 2) for _ in range(random.randrange(1, 4))), 1
        )
    # Each loop is in a line of its own, with its comment.
    loop = loop.replace("for (uint32_t", "\n        for (uint32_t")
    begin = f"    {{}} next = fp_get_time() + {LEAD_NS};\n"
    if "tick" not in loop:
        return (
            f"{C_HEAD}#define P {ns}\nvoid main0(void)\n{{\n{begin.format('uint64_t')}{loop}\n}}\n"
        )
    tick = "__attribute__((noinline)) static void tick(void) { next += P; fp_wait_until(next); }\n"
    return f"{C_HEAD}#define P {ns}\nstatic uint64_t next;\n{tick}void main0(void)\n{{\n{begin.format('')}{loop}\n}}\n"


@dataclass
class Trial:
    """A program with its frame, clock and inputs."""

    number: int
    seed: int
    folder: Path
    flexpret: Flexpret

    def __post_init__(self) -> None:
        random = Random(f"{self.seed} {self.number}")
        self.is_c = self.number % 4 == 3
        self.level = random.choice(LEVELS)
        self.clock = random.choice(CLOCKS)
        length = random.randrange(1, 9)
        own = {random.randrange(length)} | {at for at in range(length) if random.random() < 0.4}
        self.frame = "".join("T" if at in own else "S" for at in range(length))
        self.drawn = random.getrandbits(64)
        self.random = random

    def built(self, ns: int) -> None:
        random = Random(self.drawn)
        if self.is_c:
            (self.folder / "t0_main.c").write_text(in_c(random, ns))
            words = [
                "make",
                "-s",
                "-B",
                "-C",
                str(self.folder),
                "PROGRAM=own",
                "OBJECTS=start.o t0_main.o",
            ]
            words += [f"OPTIONS={self.level} -g", f"FP_LAYOUT={TOP}/tools/fp_layout"]
            made = subprocess.run(words, capture_output=True, text=True, check=False)
            if made.returncode:
                raise RuntimeError(made.stderr[-500:])
            words = [self.flexpret.path, "elf", str(self.folder / "own.elf")]
        else:
            (self.folder / "own.s").write_text(assembler(random, ns))
            words = [self.flexpret.path, "asm", str(self.folder / "own.s")]
        (self.folder / "own.fpx").write_bytes(
            subprocess.run(words, capture_output=True, check=True).stdout
        )

    def setup(self, most_cycles: int) -> Setup:
        slots = ", ".join(
            [f'"{"T0" if it == "T" else "S"}"' for it in self.frame]
            + ['"D"'] * (8 - len(self.frame))
        )
        at = 0
        inputs: list[str] = []
        while at < most_cycles and len(inputs) < MOST_INPUTS:
            inputs.append(f"[{at}, {self.random.choice((15, 0, 9, self.random.randrange(2**16)))}]")
            at += self.random.randrange(50, max(most_cycles // 1000, 51))
        path = self.folder / "own.toml"
        path.write_text(
            SETUP.format(
                clock=self.clock, folder=self.folder, slots=slots, inputs=", ".join(inputs)
            )
        )
        return read_valid(path)

    def asked(self, ns: int | None, setup: Setup) -> Result:
        program = Program(self.folder / "own.elf") if self.is_c else Program(None)
        judge = Judge(self.flexpret, setup, read_image(setup.image), program, Sources(None))
        cycles = None if ns is None else ns // self.clock
        budget = Budget("it", 0, 0, 0, cycles, period=PeriodOf(None, ns))
        return max(results_of(judge, budget), key=lambda it: (it.verdict, it.bound or 0))

    def row(self) -> tuple[str, bool, float | None]:
        """The row of the program, whether it is right, and the ratio of the longest period and the
        bound."""
        name = (
            f"{self.number:4} {'C ' + self.level if self.is_c else 'asm'} {self.frame} {self.clock}"
        )
        ns, bound = FIRST_NS, 0
        for _ in range(4):  # the distance may change the code that adds it
            self.built(ns)
            found = self.asked(None, self.setup(0))
            if found.bound is None:
                return f"{name} UNKNOWN {found.text}", True, None
            bound = found.bound
            if bound * self.clock == ns:
                break
            ns = bound * self.clock
        cycles = (PERIODS + 4) * bound + 2 * LEAD_NS // self.clock
        setup = self.setup(cycles)
        found = self.asked(ns, setup)
        if found.verdict is not Verdict.HOLDS or found.bound is None:
            is_right = found.verdict is Verdict.UNKNOWN
            return f"{name} {found.word} {found.text}", is_right, None
        runs = PeriodRuns(self.flexpret, setup, cycles, "periods")
        ran = runs.compared([found])[0]
        ratio = (ran.longest or 0) / found.bound
        is_right = ran.verdict is Verdict.HOLDS and (ran.executions or 0) >= PERIODS
        return (
            f"{name} {found.bound} {ran.longest} {ratio:.4f}{'' if is_right else f' WRONG: {ran.text}'}",
            is_right,
            ratio,
        )


def prepared(folder: Path) -> None:
    for name in ("Makefile", "flexpret.h", "flexpret.ld"):
        shutil.copy(TOP / "examples/c" / name, folder)
    text = (TOP / "examples/c/start.s").read_text()
    (folder / "start.s").write_text(re.sub(r"^ *start_thread 1$", "", text, flags=re.M))


def main() -> int:
    parser = argparse.ArgumentParser(
        description=__doc__, formatter_class=argparse.RawDescriptionHelpFormatter
    )
    parser.add_argument("--count", type=int, default=200, help="how many programs")
    parser.add_argument("--seed", type=int, default=1)
    parser.add_argument("--first", type=int, default=0, help="the number of the first program")
    parser.add_argument(
        "--flexpret", help="the program; else what FLEXPRET names, or the built one"
    )
    asked = parser.parse_args()
    flexpret = Flexpret(
        asked.flexpret
        or os.environ.get("FLEXPRET")
        or str(TOP / "crates/flexpret_cli/out/flexpret_cli")
    )
    ratios, wrong, without = [], 0, 0
    for number in range(asked.first, asked.first + asked.count):
        with tempfile.TemporaryDirectory(prefix="periods-") as folder:
            prepared(Path(folder))
            try:
                row, is_right, ratio = Trial(number, asked.seed, Path(folder), flexpret).row()
            except RuntimeError as fault:  # too large for its region
                row, is_right, ratio = f"{number:4} {str(fault).splitlines()[-1]}", True, None
        print(row, flush=True)
        wrong += not is_right
        without += ratio is None
        ratios += [] if ratio is None else [ratio]
    if ratios:
        mean = sum(ratios) / len(ratios)
        print(f"longest / bound: {min(ratios):.4f} to {max(ratios):.4f}, mean {mean:.4f}")
    print(f"dev/fuzz/periods.py: {len(ratios)} compared, {without} not, {wrong} differ")
    return 1 if wrong else 0


if __name__ == "__main__":
    sys.exit(main())
