"""Compares the depth that fp_stack has of random programs with their runs.

A program is assembler of two to five functions, with frames, saved registers, frame pointers,
loops, choices, last calls by jumps, and calls through known addresses. It may have a trap handler
that comes back, skips the word, stays, or sets sp again, with traps or a moment that expires. Every
other program also does what a stack doesn't stand: it moves sp or s0, or stores into its frame, at
random places. No run may get deeper than a depth that is known. Status 1: one does; it is kept in
--keep.

    FLEXPRET=.. python3 -m dev.fuzz.stacks 1 500"""

import argparse
import os
import random
import sys
import tempfile
from collections import Counter
from dataclasses import dataclass, field
from pathlib import Path


from fptools.testing import stack_programs
from fptools.budget.files import Verdict
from dev.program import built_program

CYCLES = 20_000
FRAME = 48
SAVED = ("s0", "s10", "s11")
MOST_DEPTH = 2
MODES = ("none", "none", "stop", "skip", "back", "deep", "restart", "expire", "again")
ARM = (".insn r 0x0b, 0, 0, t2, x0, x0", ".insn r 0x0b, 1, 0, t3, x0, x0")
HOSTILE = (
    *("addi sp, sp, -16", "addi sp, sp, 16", "mv sp, s0", "addi s0, s0, -16", "sw s0, 12(sp)"),
    *("sw ra, 28(sp)", "lw ra, 12(sp)", "addi t4, sp, -32", "mv sp, t4", "sw t4, 8(sp)"),
    *("lw s0, 8(sp)", "sw t4, -4(sp)", "ret", "mret", "sw t4, 44(sp)"),
)


@dataclass
class Writer:
    """Writes a random program."""

    chance: random.Random
    is_hostile: bool
    lines: list[str] = field(default_factory=list)
    labels: int = 0

    def program(self) -> str:
        self.mode = self.chance.choice(MODES)
        self.count = self.chance.randint(2, 5)
        self.put('.section .text.main0, "ax"', ".globl main0", "main0: nop")
        if self.mode != "none":
            self.put("la t1, handler", "csrw mtvec, t1")
        if self.mode in ("expire", "again"):
            self._arm(self.chance.randint(100, 2000))
        self.put("again: lui t6, 0x40000", "lw a0, 0(t6)", "call f0", "addi a1, a1, 5", "j again")
        for number in range(self.count):
            self._function(number)
        self._handler()
        return "\n".join(self.lines) + "\n"

    def put(self, *lines: str) -> None:
        self.lines += lines

    def label(self) -> str:
        self.labels += 1
        return f"l{self.labels}"

    def _arm(self, cycles: int) -> None:
        self.put(*ARM, f"addi t2, t2, {cycles}", ".insn r 0x0b, 4, 0, x0, t3, t2")

    def _function(self, number: int) -> None:
        self.put(f"f{number}: nop")
        early = self.label() if self.chance.random() < 0.3 else ""
        if early:
            self.put("andi t0, a0, 1", f"bnez t0, {early}")
        self.put(f"addi sp, sp, -{FRAME}", f"sw ra, {FRAME - 4}(sp)")
        self.put(*(f"sw {it}, {FRAME - 8 - 4 * at}(sp)" for at, it in enumerate(SAVED)))
        has_pointer = self.chance.random() < 0.4
        self.put(*[f"addi s0, sp, {FRAME}"] * has_pointer)
        self._body(number, 0)
        self.put(*[f"addi sp, s0, -{FRAME}"] * (has_pointer and self.chance.random() < 0.7))
        self.put(*(f"lw {it}, {FRAME - 8 - 4 * at}(sp)" for at, it in enumerate(SAVED)))
        self.put(f"lw ra, {FRAME - 4}(sp)", f"addi sp, sp, {FRAME}")
        goes_on = number + 1 < self.count and self.chance.random() < 0.2
        self.put(f"tail {self._callee(number)}" if goes_on else "ret")
        if early:
            self.put(f"{early}: addi a0, a0, 1", "ret")

    def _callee(self, number: int) -> str:
        return f"f{self.chance.randint(number + 1, self.count - 1)}"

    def _body(self, number: int, depth: int) -> None:
        for _ in range(self.chance.randint(1, 4)):
            kinds = (
                "plain",
                "call",
                "call",
                "choice",
                "loop",
                "moved",
                "trap",
                "hostile",
                "hostile",
            )
            kind = self.chance.choice(kinds)
            if kind == "call" and number + 1 < self.count:
                self._call(number)
            elif kind in ("choice", "loop") and depth < MOST_DEPTH:
                self._nested(kind, number, depth)
            elif kind == "moved":
                self._moved()
            elif kind == "trap" and self.mode in ("skip", "back", "stop", "deep", "restart"):
                self.put(self.chance.choice(("ecall", "ebreak", ".word 0", "lw t0, 1(zero)")))
            elif kind == "hostile" and self.is_hostile and self.chance.random() < 0.35:
                self.put(self.chance.choice((*HOSTILE, f"j f{self.chance.randrange(self.count)}")))
            else:
                self.put("addi a0, a0, 7", "xor a1, a1, a0")

    def _call(self, number: int) -> None:
        callee = self._callee(number)
        is_by_register = self.chance.random() < 0.15
        self.put(
            *((f"la t5, {callee}", "jalr ra, 0(t5)") if is_by_register else (f"call {callee}",))
        )

    def _nested(self, kind: str, number: int, depth: int) -> None:
        label = self.label()
        if kind == "choice":
            self.put(f"andi t0, a0, {self.chance.choice((1, 2, 4))}", f"beqz t0, {label}")
            self._body(number, depth + 1)
            self.put(f"{label}: nop")
            return
        counter = SAVED[1 + depth % 2]
        self.put(f"li {counter}, {self.chance.randint(1, 4)}", f"{label}: nop")
        self._body(number, depth + 1)
        self.put(f"addi {counter}, {counter}, -1", f"bgtz {counter}, {label}")

    def _moved(self) -> None:
        """Room on the stack for a while, in one of three forms."""
        size = 16 * self.chance.randint(1, 4)
        forms = (
            (f"addi sp, sp, -{size}", "sw a1, 0(sp)", f"addi sp, sp, {size}"),
            (f"li t3, {size}", "sub sp, sp, t3", "sw a1, 4(sp)", "add sp, sp, t3"),
            ("mv t4, sp", f"addi sp, sp, -{size}", "sw zero, 0(sp)", "mv sp, t4"),
        )
        self.put(*self.chance.choice(forms))

    def _handler(self) -> None:
        size = 16 * self.chance.randint(1, 4)
        self.put("handler: nop")
        if self.mode == "restart":
            self.put("la sp, stack_top0", "j again")
        if self.mode in ("deep", "expire"):
            self.put(f"addi sp, sp, -{size}", "sw zero, 0(sp)", "stays: j stays")
        if self.mode in ("skip", "back", "again"):
            self.put(f"addi sp, sp, -{size}", "sw t0, 0(sp)", "sw t2, 4(sp)", "sw t3, 8(sp)")
            if self.mode == "skip":
                self.put("csrr t0, mepc", "addi t0, t0, 4", "csrw mepc, t0")
            if self.mode == "again":
                self._arm(self.chance.randint(800, 2000))
            self.put("lw t0, 0(sp)", "lw t2, 4(sp)", "lw t3, 8(sp)", f"addi sp, sp, {size}", "mret")
        self.put("j handler")


def outcome_of(flexpret: str, folder: Path, source: str) -> str:
    """How the depth of a program compares with its run."""
    (folder / "own_program.s").write_text(source)
    made = stack_programs.built(flexpret, folder, "own_program", "", sources=folder)
    stack, lowest = made.stack(), made.lowest(flexpret, CYCLES)
    if stack.verdict is Verdict.UNKNOWN or stack.bytes is None:
        return "unknown"
    if lowest > stack.bytes:
        return f"deeper: {lowest} bytes in a run: {stack}"
    return "equal" if lowest == stack.bytes else "above"


def main() -> int:
    parser = argparse.ArgumentParser(
        description=__doc__, formatter_class=argparse.RawDescriptionHelpFormatter
    )
    parser.add_argument("seed", type=int)
    parser.add_argument("count", type=int)
    parser.add_argument(
        "--keep", type=Path, default=Path("stacks"), metavar="DIR", help="for what fails"
    )
    asked = parser.parse_args()
    flexpret, outcomes = str(built_program(os.environ.get("FLEXPRET"))), Counter[str]()
    for number in range(asked.count):
        chance = random.Random(f"{asked.seed} {number}")
        source = Writer(chance, number % 2 == 1).program()
        with tempfile.TemporaryDirectory() as folder:
            outcome = outcome_of(flexpret, Path(folder), source)
        outcomes[outcome.split(":")[0]] += 1
        if outcome.startswith("deeper"):
            print(f"{number}: {outcome}", flush=True)
            asked.keep.mkdir(exist_ok=True)
            (asked.keep / f"{asked.seed}_{number}.s").write_text(source)
    known = ", ".join(f"{outcomes[it]} {it}" for it in ("equal", "above", "unknown"))
    deeper = outcomes["deeper"]
    print(f"seed {asked.seed}: {asked.count} compared, {deeper} differ; {known}")
    return 1 if deeper else 0


if __name__ == "__main__":
    sys.exit(main())
