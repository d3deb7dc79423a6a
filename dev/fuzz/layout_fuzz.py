"""Lays out random functions of C, and compares them with the compiler's own order.

Functions have loops in loops, choices, switches, breaks, continues, returns, calls, and gotos onward and back, also into
loops, and end by a count of steps. A level, section or function, and --rotate are chosen by the seed too. Each has to be
accepted by the independent check and the model, to do the same in quick_run.c as in gcc's order, and to have no execution
of 1,000 longer than its bound; a second pass changes nothing. Functions whose loops lie deeper than a bound takes are
counted apart. Status 1: one fails; its C source and assembly are kept in --keep.

    python3 -m dev.fuzz.layout_fuzz 1 500"""

import argparse
import random
import shutil
import sys
import tempfile
import time
from collections import Counter
from collections.abc import Iterator
from dataclasses import dataclass, field
from pathlib import Path


from fptools.layout.assembly import Assembly
from fptools.layout.layout import Options, lay_out
from fptools.testing.layout_check import Executable
from fptools.testing.layout_shapes import DATA, GCC, LEVELS, LINK, Shape, Way, quick_runner, run

VISITS = 1000
BATCH = 10
MOST_DEPTH = 3
MOST_STEPS = 150
"""A function ends after so many rounds and steps back in all, for the most part."""


@dataclass
class Writer:
    """Writes the body of a random function."""

    chance: random.Random
    has_gotos: bool
    labels: int = 0
    wanted: list[str] = field(default_factory=list)
    """Labels that lie ahead."""
    names: int = 0

    def value(self) -> str:
        """An expression."""
        return self.chance.choice(
            (
                "a[{} & 15]",
                "b[{} & 15]",
                "{}",
                "({} >> 3)",
                "({} * 5)",
                "({} ^ x)",
                "({} + s)",
                "({} & 7)",
                "~{}",
            )
        ).format(self.variable())

    def variable(self) -> str:
        return self.chance.choice(("s", "t", "x", "k", "s", "t"))

    def condition(self) -> str:
        """A condition, of up to three parts."""
        parts = [
            self.chance.choice(
                (
                    "{} < {}",
                    "{} == {}",
                    "{} > {}",
                    "({} ^ {}) & 1",
                    "({} + {}) & 6",
                    "(i32){} < (i32){}",
                )
            ).format(self.value(), self.value())
            for _ in range(self.chance.choice((1, 1, 2, 3)))
        ]
        joined = parts[0]
        for part in parts[1:]:
            joined = f'({joined} {self.chance.choice(("&&", "||"))} {part})'
        return joined

    def statements(self, depth: int, size: int, in_loop: bool, in_switch: bool = False) -> str:
        """About so many statements."""
        lines = []
        while size > 0:
            kind = self.chance.random()
            if kind < 0.20 and depth < MOST_DEPTH and size > 2:
                lines.append(self.loop(depth, size // 2))
                size -= size // 2 + 1
            elif kind < 0.40 and size > 1:
                lines.append(self.choice(depth, size // 2, in_loop))
                size -= size // 2 + 1
            elif kind < 0.46 and size > 3:
                lines.append(self.switch(depth, size // 2, in_loop))
                size -= size // 2 + 1
            elif kind < 0.56:
                lines.append(self.leap(in_loop, in_switch))
                size -= 1
            else:
                lines.append(self.plain())
                size -= 1
            if self.wanted and self.chance.random() < 0.25:
                lines.append(f"{self.wanted.pop(self.chance.randrange(len(self.wanted)))}: ;")
        return "\n".join(lines)

    def plain(self) -> str:
        form = self.chance.choice(
            (
                "s += {};",
                "t = {};",
                "s ^= {} * 3;",
                "a[k & 15] = {};",
                "b[(s + 1) & 15] += {};",
                "k++; t -= {};",
                "s = s * 5 + {};",
                "t = mixed({}, s);",
                "s -= t; k = {};",
                "x += {};",
                "s = t / (({} & 15) + 1);",
            )
        )
        return form.format(self.value())

    def leap(self, in_loop: bool, in_switch: bool) -> str:
        """A step elsewhere, or none."""
        kinds = ["return s;", "return t ^ x;"] + ["break;", "continue;", "break;"] * (
            in_loop and not in_switch
        )
        if self.has_gotos:
            kinds += ["onward", "back"] * 2
        kind = self.chance.choice(kinds)
        if kind == "onward":
            self.labels += 1
            self.wanted.append(f"l{self.labels}")
            kind = f"goto l{self.labels};"
        elif kind == "back":
            self.labels += 1
            return f"l{self.labels}: ; {self.plain()} if ({self.condition()} && --left > 0) goto l{self.labels};"
        return f"if ({self.condition()}) {kind}"

    def loop(self, depth: int, size: int) -> str:
        self.names += 1
        i, count = f"i{self.names}", self.chance.randint(1, 9)
        inside = self.statements(depth + 1, size, True)
        kind = self.chance.random()
        if kind < 0.35:
            head, end = f"for (u32 {i} = 0; {i} < {count} && --left > 0; {i}++) {{ k = {i};", "}"
        elif kind < 0.55:
            head, end = f"for (u32 {i} = 0; {i} < {count}; {i}++) {{", "}"
        elif kind < 0.8:
            head, end = f"while ({self.condition()} && --left > 0) {{", "}"
        else:
            head, end = "do {", f"}} while ({self.condition()} && --left > 0);"
        return f"{head}\n{inside}\n{end}"

    def choice(self, depth: int, size: int, in_loop: bool) -> str:
        text = f"if ({self.condition()}) {{\n{self.statements(depth, size, in_loop)}\n}}"
        if self.chance.random() < 0.6:
            text += f" else {{\n{self.statements(depth, size, in_loop)}\n}}"
        return text

    def switch(self, depth: int, size: int, in_loop: bool) -> str:
        cases = []
        for number in self.chance.sample(range(8), self.chance.randint(3, 7)):
            end = self.chance.choice(
                ("break;", "break;", "break;", "/* fall through */", "return s;")
            )
            cases.append(
                f"case {number}:\n{self.statements(depth, max(1, size // 4), in_loop, True)}\n{end}"
            )
        cases.append(f"default:\n{self.plain()}")
        return f"switch ({self.value()} & 7) {{\n" + "\n".join(cases) + "\n}"


def function(name: str, chance: random.Random) -> str:
    """A shape by chance."""
    writer = Writer(chance, chance.random() < 0.5)
    body = writer.statements(0, chance.choice((6, 12, 20, 30)), False)
    body += "".join(f"\n{label}: ;" for label in writer.wanted)
    return f"""\
#define NAME {name}
#include "shape.h"
static __attribute__((noinline, noclone)) u32 mixed(u32 v, u32 w) {{ return v & 4 ? v + w : v ^ w >> 2; }}
SHAPE(u32 x) {{ u32 s = 1, t = x, k = 0; int left = {MOST_STEPS}; (void)left; (void)mixed;
{body}
return s + t * 3 + k; }}
#include "frame.h"
"""


@dataclass
class Trial:
    """A function, the options of its compilation, and its fault."""

    name: str
    source: Path
    way: Way
    fault: str = ""

    @property
    def assembly(self) -> Path:
        return self.source.with_suffix(".s")


def trials(seed: int, first: int, count: int, folder: Path) -> Iterator[Trial]:
    for number in range(first, first + count):
        chance = random.Random(f"{seed} {number}")
        name = f"f{number}"
        source = folder / f"{name}.c"
        source.write_text(function(name, chance))
        way = Way(chance.choice(LEVELS), chance.random() < 0.5, rotate=chance.choice((0, 0, 4, 9)))
        yield Trial(name, source, way)


def compiled(it: Trial, kind: str) -> Path:
    """The object of a function in the compiler's order or laid out. Records a fault."""
    text = it.assembly.read_text()
    if kind == "laid":
        options = Options(rotate=it.way.rotate, most_copies=2000)
        laid = lay_out(Assembly(text), options)
        if laid.kept:
            it.fault = f"stays: {laid.kept[0].text}"
        elif lay_out(Assembly(laid.text), options).text != laid.text:
            it.fault = "a second pass changes it"
        text = laid.text
    source, out = it.source.with_suffix(f".{kind}.s"), it.source.with_suffix(f".{kind}.o")
    source.write_text(text)
    run([*GCC, "-c", "-o", out, source])
    return out


def linked(folder: Path, kind: str, objects: list[Path], name: str) -> Executable:
    out = folder / f"{kind}.elf"
    run([*LINK, "-n", "-T", DATA / "image.ld", "-e", f"main_{name}", "-o", out, *objects])
    out.with_suffix(".image").write_bytes(Executable(out).flat)
    return Executable(out)


def batch(folder: Path, group: list[Trial], runner: Path) -> None:
    """Tries functions together in an image. Records the fault of each."""
    runtime = folder / "runtime.o"
    if not runtime.exists():
        run([*Way("-Os", False).compiler(), "-x", "c", "-c", "-o", runtime, DATA / "runtime.inc"])
    for it in group:
        run([*it.way.compiler(), "-w", "-S", "-o", it.assembly, it.source])
    both = [
        linked(folder, kind, [*(compiled(it, kind) for it in group), runtime], group[0].name)
        for kind in ("compiled", "laid")
    ]
    for it in group:
        it.fault = it.fault or judged(it, both[0], both[1], runner)


def judged(it: Trial, one: Executable, other: Executable, runner: Path) -> str:
    before, after = Shape(one, it.name), Shape(other, it.name)
    if after.faults or after.refusal():
        refused = "; ".join(after.faults) or after.refusal()
        return "deep" if "too deep" in refused else refused
    runs = [
        shape.ran(runner, shape.executable.path.with_suffix(".image"), VISITS)
        for shape in (before, after)
    ]
    if runs[0].digest != runs[1].digest:
        return "does another thing"
    fourth, each = after.bounds(runs[1])
    if fourth < runs[1].at_fourth or each < runs[1].at_each:
        return "an execution takes longer than the bound"
    TOTAL["compiled"] += runs[0].at_fourth
    TOTAL["laid"] += runs[1].at_fourth
    return ""


TOTAL: Counter[str] = Counter()
"""The longest executions together, in cycles."""


def main() -> int:
    parser = argparse.ArgumentParser(
        description=__doc__, formatter_class=argparse.RawDescriptionHelpFormatter
    )
    parser.add_argument("seed", type=int)
    parser.add_argument("count", type=int)
    parser.add_argument(
        "--first", type=int, default=0, metavar="N", help="begin with this function of the seed"
    )
    parser.add_argument(
        "--keep", type=Path, default=Path("layout_fuzz"), metavar="DIR", help="for what fails"
    )
    asked = parser.parse_args()
    began, outcome = time.monotonic(), Counter[str]()
    for first in range(asked.first, asked.first + asked.count, BATCH):
        with tempfile.TemporaryDirectory() as text:
            folder = Path(text)
            group = list(
                trials(asked.seed, first, min(BATCH, asked.first + asked.count - first), folder)
            )
            batch(folder, group, quick_runner(folder.parent))
            for it in group:
                outcome["deep" if it.fault == "deep" else "failed" if it.fault else "right"] += 1
                if it.fault and it.fault != "deep":
                    print(f"{it.name}: {it.way}, rotate {it.way.rotate}: {it.fault}", flush=True)
                    asked.keep.mkdir(exist_ok=True)
                    for path in (it.source, it.assembly, it.source.with_suffix(".laid.s")):
                        shutil.copy(path, asked.keep)
        if sys.stderr.isatty():
            print(
                f"\r{sum(outcome.values())} of {asked.count}", end="", file=sys.stderr, flush=True
            )
    print(
        f'seed {asked.seed}: {outcome["right"]} functions right, {outcome["failed"]} failed, {outcome["deep"]} with loops too deep; '
        f'longest executions {TOTAL["laid"]} cycles, {TOTAL["compiled"]} in the order of gcc; {time.monotonic() - began:.0f} s'
    )
    return 1 if outcome["failed"] else 0


if __name__ == "__main__":
    sys.exit(main())
