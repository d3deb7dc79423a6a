"""Shapes of C, laid out: each is accepted and left by nothing, has the port stores of gcc's own order, and no execution
takes longer than its bound. dev/measure/layout_levels.py tries each at all levels, as a section and as a function."""
from __future__ import annotations

import os
import re
import shutil
import subprocess
import sys
from collections import Counter
from collections.abc import Iterator, Sequence
from dataclasses import dataclass, replace
from pathlib import Path
from typing import TypeVar

import pytest
from fptools.testing.common import BUILT, TOP
from elftools.dwarf.callframe import FDE
from elftools.elf.elffile import ELFFile
from fptools.layout.assembly import Assembly
from fptools.files.elf import Program
from fptools.layout.layout import Options, lay_out
from fptools.testing.layout_check import Executable, flow

from fptools.testing.layout_shapes import (
    BATCHES, DATA, FOURTH, LINK, SETUP, SHAPES, VISITS, Ran, Shape, Way, build, counted_hashes, quick_runner, run, shapes,
)  # fmt: skip

NEEDED = ("riscv64-unknown-elf-gcc", "riscv64-unknown-elf-ld", "cc")
Row = TypeVar("Row")
WAYS = (Way("-O2", True), Way("-Os", False), Way("-O3", True), Way("-O1", False))


@dataclass(frozen=True)
class Tried:
    """A shape as gcc has it and laid out, with what both do."""

    compiled: Shape
    laid: Shape
    compiled_ran: Ran
    laid_ran: Ran


def needs(*programs: str) -> None:
    for program in programs:
        if shutil.which(program) is None:
            pytest.skip(f"{program} isn't installed")


def tried(
    folder: Path,
    way: Way,
    batches: Sequence[Sequence[str]] = BATCHES,
    home: Path = DATA,
    visits: int = VISITS,
) -> Iterator[tuple[str, Tried]]:
    """All shapes, in batches."""
    runner = quick_runner(folder)
    for number, names in enumerate(batches):
        found = []
        for kind in (replace(way, is_laid=False), way):
            executable = build(folder / f"{kind}{number}".replace(" ", "_"), kind, names, home=home)
            image = executable.with_suffix(".image")
            image.write_bytes(Executable(executable).flat)
            found.append((shapes(executable, names), image))
        (compiled, one), (laid, other) = found
        for name in names:
            ran, laid_ran = compiled[name].ran(runner, one, visits), laid[name].ran(
                runner, other, visits
            )
            yield name, Tried(compiled[name], laid[name], ran, laid_ran)


@pytest.fixture(scope="module", params=WAYS, ids=str)
def of_way(
    request: pytest.FixtureRequest, tmp_path_factory: pytest.TempPathFactory
) -> dict[str, Tried]:
    needs(*NEEDED)
    return dict(tried(tmp_path_factory.mktemp("shapes"), request.param))


@pytest.mark.parametrize("name", SHAPES)
def test_a_shape_is_accepted_and_does_the_same(of_way: dict[str, Tried], name: str) -> None:
    accepted(of_way[name])


def accepted(it: Tried) -> None:
    assert it.laid.faults == [] and it.laid.refusal() == ""
    assert [head for head, _ in it.laid.loops_by_tool] == sorted(head for head, _ in it.laid.loops)
    assert it.laid_ran.digest == it.compiled_ran.digest
    fourth, each = it.laid.bounds(it.laid_ran)
    assert fourth >= it.laid_ran.at_fourth and each >= it.laid_ran.at_each


def test_what_the_new_order_costs(of_way: dict[str, Tried]) -> None:
    before = sum(it.compiled_ran.at_fourth for it in of_way.values())
    after = sum(it.laid_ran.at_fourth for it in of_way.values())
    assert after <= before * 1.01
    assert max(it.laid_ran.at_fourth / it.compiled_ran.at_fourth for it in of_way.values()) < 1.1


@pytest.mark.parametrize("way", [Way("-O2", False), Way("-O1", True)], ids=str)
def test_another_machine_makes_the_same_of_both_orders(tmp_path: Path, way: Way) -> None:
    needs(*NEEDED, "qemu-riscv32")
    both = [
        counted_hashes(build(tmp_path / str(kind.is_laid), kind, is_counted=True))
        for kind in (replace(way, is_laid=False), way)
    ]
    assert both[0] == both[1] and sorted(both[0]) == SHAPES
    runner = quick_runner(tmp_path)
    executable = build(tmp_path / "image", way, BATCHES[0])
    image = executable.with_suffix(".image")
    image.write_bytes(Executable(executable).flat)
    for name, shape in shapes(executable, BATCHES[0]).items():
        assert shape.ran(runner, image).digest == both[0][name], name


# ---------------------------------------------------------------- distance


def far_shape() -> str:
    """A function of more than 4 KiB, whose loops begin and end further apart than a branch reaches."""
    steps = "".join(
        f"s = s * {2 * k + 3}u + (a[(s + {k}u) & 15] ^ {k * 37}u);"
        + (f" if ((s & 63) == {k % 64}) continue;" if k % 41 == 0 else "")
        + (f" if (s == {k}u) break; b[{k % 16}] ^= s;" if k % 59 == 0 else "")
        for k in range(110)
    )
    return f"""\
#define NAME far
#include "shape.h"
SHAPE(u32 x) {{ u32 s = x; for (u32 i = 0; i < (x & 3); i++) {{
        {steps}
        for (u32 j = i; a[j & 15] & 1; j++) {{ if (j == 20) return s; {steps} }}
    }}
    return s; }}
#include "frame.h"
"""


@pytest.mark.parametrize(
    "way",
    [
        Way("-O2", True),
        Way("-Os", False),
        Way("-O1", False, rotate=4),
        Way("-O2", True, is_clang=True),
    ],
    ids=str,
)
def test_branches_that_are_too_far(tmp_path: Path, way: Way) -> None:
    needs(*NEEDED, *["clang"] * way.is_clang)
    (tmp_path / "far.c").write_text(far_shape())
    ((_, it),) = tried(tmp_path, way, [["far"]], tmp_path, 50)
    accepted(it)
    assert sum(len(seen.graph) for seen in it.laid.parts.values()) > 1300


# ---------------------------------------------------------------- clang


@pytest.mark.parametrize(
    "way", [Way("-O2", True, is_clang=True), Way("-Os", False, is_clang=True)], ids=str
)
def test_clang_by_its_assembly(tmp_path: Path, way: Way) -> None:
    """Its calls are single words, which the analyser goes through."""
    needs(*NEEDED, "clang")
    found = dict(tried(tmp_path, way))
    assert sorted(found) == SHAPES
    for it in found.values():
        accepted(it)
    assert any(it.laid.routines and it.compiled.faults for it in found.values())


# ---------------------------------------------------------------- a debugger's tables


def debugged(folder: Path, way: Way, name: str) -> tuple[Path, Path]:
    """A shape compiled with -g, as the compiler has it and laid out, each linked."""
    folder.mkdir(exist_ok=True)
    assembly = folder / f"{name}.s"
    run([*way.compiler(), "-gdwarf-4", "-S", "-o", assembly, DATA / f"{name}.c"])
    compiled = assembly.read_text()
    laid = lay_out(Assembly(compiled), Options())
    assert not laid.kept and not laid.notes
    linked = []
    for kind, text in (("compiled", compiled), ("laid", laid.text)):
        # As single words before they are compared.
        assembly.write_text(text.replace("\tcall\t", "\tjal\t"))
        built, out = folder / f"{kind}.o", folder / f"{kind}.elf"
        run([*way.assembler(), "-c", "-o", built, assembly])
        run([*LINK, "-n", "-T", DATA / "image.ld", "-e", f"main_{name}", "-o", out, built])
        linked.append(out)
    return linked[0], linked[1]


def straight(executable: Path) -> dict[int, int]:
    """The words that mean the same wherever they are: no branch, no jump."""
    words = Executable(executable).words
    return {at: word for at, word in words.items() if flow(word, at)[0] in ("next", "return")}


def lines_of(executable: Path) -> Counter[tuple[int, str]]:
    program = Program(executable)
    return Counter((word, str(program.line_of(at))) for at, word in straight(executable).items())


def frames_of(executable: Path) -> Counter[tuple[int, str, str]]:
    """Each word with the rules of the frame where it is."""
    words = straight(executable)
    found: Counter[tuple[int, str, str]] = Counter()
    with executable.open("rb") as file:
        for entry in ELFFile(file).get_dwarf_info().CFI_entries():
            if not isinstance(entry, FDE):
                continue
            rows = entry.get_decoded().table
            first = entry["initial_location"]
            for at in range(first, first + entry["address_range"], 4):
                row = [it for it in rows if it["pc"] <= at][-1]
                rules = {
                    key: str(rule)
                    for key, rule in row.items()
                    if key not in ("pc", "cfa") and rule.type != "SAME_VALUE"
                }
                if at in words:
                    found[words[at], str(row["cfa"]), str(sorted(rules.items()))] += 1
    return found


@pytest.mark.parametrize("name", ["early", "triple", "sw_loop", "isort", "calls_in_loop"])
@pytest.mark.parametrize(
    "way", [Way("-O2", False), Way("-O3", True), Way("-O2", False, is_clang=True)], ids=str
)
def test_each_instruction_keeps_its_line_and_its_frame(tmp_path: Path, name: str, way: Way) -> None:
    needs(*NEEDED, *["clang"] * way.is_clang)
    compiled, laid = debugged(tmp_path / "x", way, name)
    keeps(lines_of(compiled), lines_of(laid))
    if not way.is_clang:
        # pyelftools can't read the rules that clang's assembler writes.
        keeps(frames_of(compiled), frames_of(laid))


def lines_of_gdb(executable: Path) -> Counter[tuple[int, str]]:
    words = straight(executable)
    places = sorted(words)
    asked = [word for at in places for word in ("-ex", f"info line *{at:#x}")]
    said = run(["gdb-multiarch", "-batch", "-nx", *asked, executable]).splitlines()
    shown = [re.match(r'Line (\d+) of "(?:.*/)?([^"]*)"', line) for line in said]
    return Counter((words[at], f"{it[2]}:{it[1]}") for at, it in zip(places, shown) if it)


@pytest.mark.parametrize("name", ["early", "triple", "sw_loop"])
def test_gdb_shows_the_same_lines(tmp_path: Path, name: str) -> None:
    needs(*NEEDED, "gdb-multiarch")
    compiled, laid = debugged(tmp_path / "x", Way("-O2", False), name)
    keeps(lines_of_gdb(compiled), lines_of_gdb(laid))


def keeps(compiled: Counter[Row], laid: Counter[Row]) -> None:
    """Whether all is there, and what is there twice is a copy."""
    assert sum(compiled.values()) > 40 and compiled <= laid and compiled.keys() == laid.keys()


# ---------------------------------------------------------------- the program


SETUP_LOOP = "[[loop]]\nhead = {}\nlast = {}\nbound = {}\n"


@dataclass(frozen=True)
class Machine:
    """The program, or the model where none is built, in a folder."""

    command: tuple[str, ...]
    folder: Path

    def __call__(self, *words: object) -> bytes:
        environment = {**os.environ, "PYTHONPATH": str(TOP)}
        ran = subprocess.run(
            [*self.command, *map(str, words)],
            cwd=self.folder,
            env=environment,
            capture_output=True,
            check=False,
        )
        assert ran.returncode == 0, ran.stdout[-200:] + ran.stderr
        return ran.stdout

    def load(self, shape: Shape, rounds: Sequence[int]) -> None:
        """Writes the image, the setup and the routines of a shape."""
        (self.folder / "image.fpx").write_bytes(self("elf", shape.executable.path))
        loops = "".join(SETUP_LOOP.format(*loop, count) for loop, count in zip(shape.loops, rounds))
        setup = SETUP.format(slots=FOURTH).replace("entry = 0", f"entry = {shape.start}")
        (self.folder / "setup.toml").write_text(setup + loops)
        (self.folder / "routines").write_text("".join("%08x %08x\n" % it for it in shape.routines))

    def bound(self, shape: Shape) -> str:
        section = ("--thread", 0, "--from", hex(shape.begin), "--to", hex(shape.end))
        if shape.routines:
            return self("calls", "setup.toml", *section, "--routines", "routines").decode().strip()
        return self("bound", "setup.toml", *section).decode().strip()

    def port_stores(self, cycles: int) -> list[bytes]:
        trace = self("run", "setup.toml", "--thread", 0, "--cycles", cycles)
        return re.findall(rb"\[40000000\]/4=([0-9a-f]{8})", trace)


@pytest.fixture
def machine(tmp_path: Path) -> Machine:
    program = os.environ.get("FLEXPRET") or str(BUILT)
    is_built = os.access(program, os.X_OK)
    return Machine(
        (str(Path(program).resolve()),) if is_built else (sys.executable, "-m", "model"), tmp_path
    )


@pytest.mark.parametrize("name", ["early", "two_ways_in", "sw_loop", "calls_in_loop", "isort"])
def test_the_machine_makes_the_same_of_both_orders(
    of_way: dict[str, Tried], machine: Machine, name: str
) -> None:
    it = of_way[name]
    stores = []
    for shape in (it.compiled, it.laid):
        machine.load(Shape(shape.executable, name), ())
        stores.append(machine.port_stores(12000))
    count = min(map(len, stores))
    assert count >= 4 and stores[0][:count] == stores[1][:count]


def test_the_machines_bounds(of_way: dict[str, Tried], machine: Machine) -> None:
    """By `bound` and `calls` of the image that the machine makes of the executable: those of the tests above."""
    names = SHAPES if "-m" not in machine.command else SHAPES[::12]
    for name in names:
        it = of_way[name]
        machine.load(it.laid, it.laid_ran.rounds)
        assert machine.bound(it.laid) == f"bound {it.laid.bounds(it.laid_ran)[0]}", name
