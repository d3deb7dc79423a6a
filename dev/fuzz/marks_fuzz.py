"""Compiles random C with loop marks in many ways, and compares the bounds of its loops with a run.

A run on the host counts what each claim may state at least. Each program is built by gcc, g++ or
clang in several ways: levels, options, fp_layout or the compiler's order, FP_FLOW_DIRECT. No
bound may be below what the run of the machine code counts. Program N of a seed is always the
same, so --first continues where a call ended, and --only N repeats one. Without --seed it is the
number of commits. Status 1: a bound is below; a smaller program that also fails is kept in
--keep.

    python3 -m dev.fuzz.marks_fuzz --seed 1 --count 1000"""

import argparse
import random
import shutil
import subprocess
import sys
import tempfile
import time
from collections import Counter
from dataclasses import dataclass, field
from pathlib import Path

from dev.program import TOP

from fptools.testing.marked_programs import (
    DATA,
    LEVELS,
    Mode,
    NoBuild,
    Program,
    Seen,
    Way,
    run,
    runner,
    seen_loops,
)
from fptools.testing.marked_writer import Writer, shrunk

BUILDS = 3
"""Of a program."""

STEPS = 60_000_000
HOST_SECONDS = 5
MOST_BYTES = 9000
"""Of code: a larger program is left out."""

GCC_OPTIONS = """
-funroll-loops -funroll-all-loops -fno-tree-ch -ftree-loop-distribution -fsplit-loops
-funswitch-loops -fpeel-loops -fno-inline -finline-functions -fno-reorder-blocks
-freorder-blocks-and-partition -fmodulo-sched -fsched-pressure -fno-crossjumping -fgcse-sm
-fgcse-las -ftracer -fno-thread-jumps -fno-optimize-sibling-calls -floop-interchange
-floop-unroll-and-jam -fipa-pta -fno-ivopts -fselective-scheduling -fschedule-insns
-falign-loops=16 -falign-jumps=16 -fno-ipa-icf -fno-tree-dominator-opts -fprefetch-loop-arrays
-fno-if-conversion -msave-restore -fno-guess-branch-probability -fno-toplevel-reorder
""".split()
CLANG_OPTIONS = [
    ("-funroll-loops",),
    ("-mllvm", "-unroll-runtime"),
    ("-mllvm", "-unroll-allow-peeling"),
    ("-fno-inline",),
    ("-mllvm", "-enable-loopinterchange"),
    ("-mllvm", "-enable-loop-distribute"),
    ("-mllvm", "-tail-dup-size=8"),
    ("-mllvm", "-enable-unroll-and-jam"),
]


def way_of(chance: random.Random, is_cpp: bool) -> Way:
    """How a program is built."""
    compiler = chance.choice(
        ["g++", "g++", "g++", "clang++"] if is_cpp else ["gcc", "gcc", "gcc", "clang"]
    )
    options = CLANG_OPTIONS if "clang" in compiler else [(it,) for it in GCC_OPTIONS]
    level = chance.choice([*LEVELS, "-O2", "-O3"])
    more = (
        [word for it in chance.sample(options, chance.randint(1, 4)) for word in it]
        if chance.random() < 0.5
        else []
    )
    mode = chance.choice([Mode.LAID] * 3 + [Mode.PLAIN] * 2 + [Mode.DIRECT])
    return Way(compiler, level, mode, tuple(more), has_lines=False)


@dataclass
class Trial:
    """A program, and how it is built."""

    seed: str
    folder: Path
    is_cpp: bool = False
    ways: list[Way] = field(default_factory=list)

    def __post_init__(self) -> None:
        chance = random.Random(f"{self.seed} ways")
        self.is_cpp = chance.random() < 0.12
        self.ways = [way_of(chance, self.is_cpp) for _ in range(BUILDS)]

    def count_on_host(self, text: str) -> Path:
        """Writes the source, and n of each claim as a run on the host counts it."""
        source = self.folder / ("p.cpp" if self.is_cpp else "p.c")
        source.write_text(text)
        numbers = "".join(f"#define N{k} {k}\n" for k in range(text.count("FP_LOOP") + 20))
        (self.folder / "numbers.h").write_text(numbers)
        compiler = [
            "c++" if self.is_cpp else "cc",
            "-w",
            "-O1",
            "-DHOST",
            "-I",
            DATA,
            "-include",
            self.folder / "numbers.h",
        ]
        run([*compiler, "-o", self.folder / "host", source])
        (self.folder / "n.h").write_text(run([self.folder / "host"], seconds=HOST_SECONDS))
        return source

    def seen(self, source: Path, way: Way, loop_run: Path) -> list[Seen]:
        """The loops of a build. Raises NoBuild."""
        options = ["-include", self.folder / "n.h"]
        elf = Program(self.folder, [source], options).built(way, "start")
        return seen_loops(elf, loop_run, "start", STEPS, None)

    def fails(self, text: str, way: Way, loop_run: Path) -> bool:
        """Whether a bound of a program is below its run."""
        try:
            return any(
                it.kind == "below" for it in self.seen(self.count_on_host(text), way, loop_run)
            )
        except NoBuild:
            return False


def tried(trial: Trial, loop_run: Path, keep: Path) -> Counter[str]:
    """Builds and runs a program in its ways."""
    found: Counter[str] = Counter()
    try:
        source = trial.count_on_host(Writer(trial.seed, trial.is_cpp).program())
    except NoBuild as why:
        print(f"{trial.seed}: on the host: {why}", file=sys.stderr)
        return Counter({"not tried: the host": 1})
    for way in trial.ways:
        try:
            seen = trial.seen(source, way, loop_run)
        except NoBuild as why:
            reason = str(why).split()[0].rpartition("/")[2]
            found[f"not tried: {reason}"] += 1
            print(f"{trial.seed}: {way}: {str(why)[-300:]}", file=sys.stderr)
            continue
        found["programs"] += 1
        found += Counter(it.kind for it in seen if it.stated.function != "start")
        if any(it.kind == "below" for it in seen):
            shown = [it for it in seen if it.kind == "below"]
            print(f"{trial.seed}: {way}: {shown}", flush=True)
            text = shrunk(trial.seed, trial.is_cpp, lambda it: trial.fails(it, way, loop_run))
            trial.fails(text, way, loop_run)
            shutil.copytree(trial.folder, keep / trial.seed.replace(" ", "_"), dirs_exist_ok=True)
            trial.count_on_host(Writer(trial.seed, trial.is_cpp).program())
    return found


def commits() -> int:
    """The number of commits: a seed that rises."""
    counted = subprocess.run(
        ["git", "rev-list", "--count", "HEAD"], cwd=TOP, capture_output=True, text=True, check=False
    )
    return int(counted.stdout) if counted.returncode == 0 else 1


def main() -> int:
    parser = argparse.ArgumentParser(
        description=__doc__, formatter_class=argparse.RawDescriptionHelpFormatter
    )
    parser.add_argument("--seed", type=int, default=commits(), help="what is drawn")
    parser.add_argument(
        "--first", type=int, default=0, metavar="N", help="begin with this program of the seed"
    )
    parser.add_argument(
        "--count",
        type=int,
        default=50,
        metavar="N",
        help=f"so many programs, each in {BUILDS} builds",
    )
    parser.add_argument("--only", type=int, metavar="N", help="only this program")
    parser.add_argument(
        "--keep", type=Path, default=Path("failed"), help="the folder for programs that fail"
    )
    asked = parser.parse_args()
    numbers = range(asked.first, asked.first + asked.count) if asked.only is None else [asked.only]
    began, found, last = time.monotonic(), Counter[str](), -1
    with tempfile.TemporaryDirectory() as folder:
        loop_run = runner(Path(folder))
        for number in numbers:
            last, own = number, Path(folder) / str(number)
            own.mkdir()
            found += tried(Trial(f"{asked.seed} {number}", own), loop_run, asked.keep)
            shutil.rmtree(own)
    counts = ", ".join(f"{count} {kind}" for kind, count in sorted(found.items()))
    print(
        f"seed {asked.seed}, programs {numbers[0]} to {last}, "
        f"in {time.monotonic() - began:.0f} s: {counts}"
    )
    return 1 if found["below"] else 0


if __name__ == "__main__":
    sys.exit(main())
