"""Compares the core of rtl/ with the program: traces of all threads, and dumps.

    python3 -m dev.fuzz.core [--program FILE] [--core FILE] [--count N] [--seed N] [--only GENERATOR]

It builds the core by Verilator, draws COUNT setups by each generator, and takes all examples.
--faults instead plants each fault of dev/fuzz/core_faults.py in the core. The commands of
docs/FLEXPRET.md must find it over the example that it names. The gate does both. The status is 1 if
a setup differs, or a fault isn't found."""

import argparse
import os
import random
import subprocess
import sys
import tempfile
import tomllib
from collections.abc import Callable, Iterator, Sequence
from concurrent.futures import ThreadPoolExecutor
from dataclasses import dataclass
from itertools import zip_longest
from pathlib import Path
from typing import Protocol

from dev.fuzz.core_faults import FAULTS, Fault, faulty
from dev.program import TOP, built_program


from fptools.core.compared import THREADS, split
from fptools.files.image import read_image
from fptools.core.loaded import loaded
from fptools.core.records import read_record
from fptools.files.setup import Setup
from model.drawn.edges import EdgeWorld
from model.drawn.odd import OddWorld
from model.drawn.worlds import World

RTL = TOP / "rtl"
COUNT = 34
"""Setups of a generator in the gate: about 100 in all."""

CYCLES = (5, 300, 700, 1500, 3000)
"""The cycles that a drawn setup is run for: one of these."""

EXAMPLE_CYCLES = 2000
ROOM = "/dev/shm" if os.path.isdir("/dev/shm") else None
"""Where files of a comparison are: in memory, if possible."""

FIRST_SHOWN = 10
"""Setups that differ, of each group, and are printed."""


class Drawn(Protocol):
    """A drawn setup with its image, which it calls a.fpx."""

    setup: bytes
    image: bytes


GENERATORS: dict[str, Callable[[int], Drawn]] = {
    "general": World, "odd": OddWorld, "edges": EdgeWorld,
}  # fmt: skip
"""Setups of all kinds; raw words and odd addresses; calculations with operands at edges."""


@dataclass(frozen=True)
class Result:
    """The events of a run, of all threads, and what differs."""

    events: int
    differences: Sequence[str]


@dataclass(frozen=True)
class Pair:
    """The core and the program."""

    core: Path
    program: Path

    def compare(self, setup: Setup, folder: Path, cycles: int) -> Result:
        """Compares a run of a setup, whose names are relative to this folder. A trace or dump that
        differs has its first such line in the result."""
        found: list[str] = []
        image = read_image(folder / setup.image)
        with tempfile.TemporaryDirectory(dir=ROOM) as room:
            made = Path(room)
            (made / "loaded").write_text(loaded(setup, image))
            words = [str(made / "loaded"), "--cycles", str(cycles), "--csv", str(made / "csv")]
            subprocess.run([self.core, *words, "--dump", str(made / "dump")], check=True)
            events = sum(split(read_record(made / "csv", {}), cycles, made))
            for k in THREADS:
                words = ["run", str(setup.path), "--thread", str(k), "--cycles", str(cycles)]
                wanted = self.ask(words, folder)
                found += first_different(f"T{k}", (made / str(k)).read_text(), wanted)
            words = ["dump", str(setup.path), "--cycles", str(cycles)]
            found += first_different("dump", (made / "dump").read_text(), self.ask(words, folder))
        return Result(events, [f"{setup.path}, {cycles} cycles: {it}" for it in found])

    def ask(self, words: Sequence[str], folder: Path) -> str:
        """What the program writes, also if it refuses."""
        call = [str(self.program), *words]
        return subprocess.run(call, cwd=folder, capture_output=True, text=True, check=False).stdout


def first_different(what: str, found: str, wanted: str) -> Iterator[str]:
    """The first line in which two texts differ, or nothing."""
    if found == wanted:
        return
    for number, pair in enumerate(zip_longest(wanted.splitlines(), found.splitlines()), 1):
        if pair[0] != pair[1]:
            yield f"{what} line {number}: program {pair[0]!r}, core {pair[1]!r}"
            return


# ---------------------------------------------------------------------------------- drawn setups


def compare_drawn(pair: Pair, generator: str, seed: int) -> Result:
    """Compares a run of the setup of a seed."""
    drawn = GENERATORS[generator](seed)
    cycles = random.Random(seed).choice(CYCLES)
    with tempfile.TemporaryDirectory(dir=ROOM) as room:
        folder = Path(room)
        (folder / "a.toml").write_bytes(drawn.setup)
        (folder / "a.fpx").write_bytes(drawn.image)
        result = pair.compare(read_drawn(Path("a.toml"), drawn.setup), folder, cycles)
    return Result(result.events, [f"{generator} {seed}: {it}" for it in result.differences])


def read_drawn(path: Path, text: bytes) -> Setup:
    """A setup without its faults looked for, and without the lines of its keys."""
    return Setup(path, tomllib.loads(text.decode()), {})


def compare_example(pair: Pair, path: Path) -> Result:
    """Compares a run of an example."""
    return pair.compare(read_drawn(path.relative_to(TOP), path.read_bytes()), TOP, EXAMPLE_CYCLES)


def example_setups() -> list[Path]:
    """The setups of examples/ whose image is there."""
    found = []
    for path in sorted((TOP / "examples").rglob("*.toml")):
        image = tomllib.loads(path.read_text()).get("image")
        if image and (TOP / image).is_file():
            found.append(path)
    return found


def report(name: str, results: Sequence[Result]) -> bool:
    """Prints a group's line and its first differences. Returns whether there are none."""
    differing = [it for it in results if it.differences]
    for result in differing[:FIRST_SHOWN]:
        print(f"differs: {result.differences[0]}")
    events = sum(it.events for it in results)
    counts = f"{len(results)} compared, {len(differing)} differ; {events} events"
    print(f"core, {name}: {counts}", flush=True)
    return not differing


def compare(pair: Pair, given: argparse.Namespace) -> bool:
    """Compares all drawn setups and the examples."""
    same = True
    seeds = range(given.seed, given.seed + given.count)
    with ThreadPoolExecutor(given.jobs) as pool:
        for name in [given.only] if given.only else list(GENERATORS):
            results = list(pool.map(lambda seed: compare_drawn(pair, name, seed), seeds))
            same &= report(name, results)
        if not given.only:
            examples = list(pool.map(lambda path: compare_example(pair, path), example_setups()))
            same &= report("examples", examples)
    return same


# ---------------------------------------------------------------------------------------- faults


def is_found(core: Path, number: int, fault: Fault, folder: Path) -> bool:
    """Whether the commands of docs/FLEXPRET.md find a fault over its example."""
    caller = folder / "core"
    caller.write_text(f'#!/bin/sh\nexec {core} "$@" +fault={number}\n')
    caller.chmod(0o755)
    setup, cycles = f"examples/{fault.example}.toml", str(fault.cycles)
    record = str(folder / "board.csv")
    run = ["rtl/simulate", setup, "--cycles", cycles, "--csv", record, "--core", str(caller)]
    subprocess.run([sys.executable, *run], cwd=TOP, check=True)
    compared = [sys.executable, "tools/fp_record", record, "--compare", setup, "--cycles", cycles]
    ran = subprocess.run(compared, cwd=TOP, capture_output=True, text=True, check=False)
    return ran.returncode == 1 and "differs: T" in ran.stdout and "  defined " in ran.stdout


def try_faults(core: Path, folder: Path) -> bool:
    """Tries all faults, and that the same core without a fault is the same over their examples."""
    missed = []
    for sound in {fault.example: fault for fault in FAULTS}.values():
        if is_found(core, 0, sound, folder):
            missed.append(f"{sound.example} differs without a fault")
    for number, fault in enumerate(FAULTS, 1):
        if not is_found(core, number, fault, folder):
            missed.append(f"{fault.name} isn't found over {fault.example}")
    for text in missed:
        print(f"differs: {text}")
    print(f"core, faults: {len(FAULTS)} compared, {len(missed)} differ")
    return not missed


# ----------------------------------------------------------------------------------------- main


def build(folder: Path, core: str | None = None) -> Path:
    """Builds the core in a folder, of a text instead of rtl/flexpret.sv if one is given."""
    words = ["make", "-C", str(RTL), f"OUT={folder}"]
    if core is not None:
        (folder / "flexpret.sv").write_text(core)
        words.append(f"CORE={folder / 'flexpret.sv'}")
    ran = subprocess.run(words, capture_output=True, text=True, check=False)
    if ran.returncode:
        sys.exit(f"{' '.join(words)} failed:\n{ran.stdout[-2000:]}{ran.stderr[-2000:]}")
    return folder / "flexpret_core"


def parsed() -> argparse.Namespace:
    parser = argparse.ArgumentParser(
        description=__doc__, formatter_class=argparse.RawDescriptionHelpFormatter
    )
    add = parser.add_argument
    add("--program", help="the program; if left out, what FLEXPRET names, or the built one")
    add("--core", type=Path, help="a built core, instead of building it")
    add("--count", type=int, default=COUNT, metavar="N", help="setups of each generator")
    add("--seed", type=int, default=0, metavar="N", help="the first seed")
    add("--only", choices=list(GENERATORS), help="setups of one generator, and no examples")
    add("--jobs", type=int, default=1, metavar="N", help="how many setups at once")
    add("--faults", action="store_true", help="plants faults instead")
    return parser.parse_args()


def main() -> int:
    given = parsed()
    program = built_program(given.program or os.environ.get("FLEXPRET"))
    os.environ["FLEXPRET"] = str(program)
    with tempfile.TemporaryDirectory(prefix="core-") as room:
        folder = Path(room)
        if given.faults:
            core = build(folder, faulty((RTL / "flexpret.sv").read_text()))
            return 0 if try_faults(core, folder) else 1
        core = given.core.resolve() if given.core else build(folder)
        return 0 if compare(Pair(core, program), given) else 1


if __name__ == "__main__":
    sys.exit(main())
