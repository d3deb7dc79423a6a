"""The values that gdb prints in a laid out program and in the compiler's order are the same: both
run on qemu-riscv32, and stop before the same instructions."""
from __future__ import annotations

import json
import shutil
import subprocess
import time
from collections.abc import Mapping
from dataclasses import dataclass
from pathlib import Path

import pytest
from fptools.layout.tests.debug_check import Pair
from elftools.elf.elffile import ELFFile
from fptools.layout.assembly import INVERSE, Kind, statements
from fptools.testing.layout_shapes import DATA, LINK, Way, counted_main, run

STOPS = 200
WAIT = 20.0
"""The seconds for which qemu may take to open its socket."""

SCRIPT = """\
import gdb, json
gdb.execute("set pagination off")
gdb.execute("set breakpoint always-inserted on")
gdb.execute("target remote {socket}")
places = {places}
for at in places:
    gdb.Breakpoint("*%s" % at)

def shown(symbol, frame):
    try:
        return str(symbol.value(frame))
    except Exception as fault:
        return str(fault)

def values(frame):
    found, block = [], frame.block()
    while block is not None:
        own = [it for it in block if it.is_variable or it.is_argument]
        found.append([(it.name, shown(it, frame)) for it in own])
        if block.function:
            return [str(block.function), found]
        block = block.superblock

for _ in range({stops}):
    gdb.execute("continue", to_string=True)
    frame, frames = gdb.newest_frame(), []
    line = places[str(frame.pc())]
    while frame.type() == gdb.INLINE_FRAME:
        frames.append(values(frame))
        frame = frame.older()
    print("STOP" + json.dumps([line, frames + [values(frame)]]))
"""


@dataclass
class Built:
    """An executable, and the compiler's line for each place of a stop."""

    executable: Path
    places: dict[str, int]

    def stops(self, folder: Path) -> list[object]:
        """Each stop: the compiler's line, and the functions with the values of their variables."""
        socket, script = (
            folder / f"{self.executable.stem}.socket",
            folder / f"{self.executable.stem}.py",
        )
        script.write_text(SCRIPT.format(socket=socket, places=json.dumps(self.places), stops=STOPS))
        with subprocess.Popen(
            ["qemu-riscv32", "-g", socket, self.executable], stdout=subprocess.DEVNULL
        ) as machine:
            try:
                until = time.monotonic() + WAIT
                while not socket.exists() and time.monotonic() < until:
                    time.sleep(0.02)
                said = run(["gdb-multiarch", "-nx", "-batch", "-x", script, self.executable])
            finally:
                machine.kill()
        return [json.loads(line[4:]) for line in said.splitlines() if line.startswith("STOP")]


def plain_lines(text: str) -> set[int]:
    """The lines of the instructions that aren't branches or jumps."""
    all_of = [it for it in statements(text.split("\n"), 1) if it.kind is Kind.CODE]
    return {it.line for it in all_of if it.name not in INVERSE and it.name not in ("j", "jump")}


def linked(folder: Path, way: Way, kind: str, text: str, lines: Mapping[str, int]) -> Built:
    """An executable of an assembly. `lines` are the compiler's lines of its symbols."""
    sources = {
        kind: folder / f"{kind}.s",
        "counted": folder / "counted.c",
        "runtime": DATA / "runtime.inc",
    }
    sources[kind].write_text(text)
    objects = []
    for name, source in sources.items():
        objects.append(folder / f"{name}.o")
        compiler = way.assembler() if name == kind else [*way.compiler(), "-DCOUNTED", "-x", "c"]
        run([*compiler, "-c", "-o", objects[-1], source])
    out = folder / f"{kind}.elf"
    run([*LINK, "--no-relax", "-T", DATA / "counted.ld", "-e", "_start", "-o", out, *objects])
    with out.open("rb") as file:
        at = {
            it.name: it["st_value"]
            for it in ELFFile(file).get_section_by_name(".symtab").iter_symbols()
        }
    return Built(out, {str(at[name]): line for name, line in lines.items()})


CASES = [
    ("triple", Way("-O2", True), 5),
    ("triple", Way("-O2", True, is_clang=True), 5),
    ("parser", Way("-Og", True), 4),
    ("parser", Way("-Os", True), 5),
]


@pytest.mark.parametrize(("name", "way", "version"), CASES, ids=str)
def test_gdb_shows_the_same_values(tmp_path: Path, name: str, way: Way, version: int) -> None:
    for program in (
        "qemu-riscv32",
        "gdb-multiarch",
        "riscv64-unknown-elf-gcc",
        *["clang"] * way.is_clang,
    ):
        if shutil.which(program) is None:
            pytest.skip(f"{program} isn't installed")
    source = tmp_path / "compiled.s"
    command = [
        *way.compiler(),
        "-DCOUNTED",
        f"-gdwarf-{version}",
        "-S",
        "-o",
        source,
        DATA / f"{name}.c",
    ]
    run(command)
    (tmp_path / "counted.c").write_text(counted_main([name]))
    pair = Pair.of(source.read_text("latin-1"))
    plain = plain_lines(source.read_text("latin-1").replace(".Ltext0:\n", ".Ltext0:\n\tnop\n"))
    stops = {
        number: it[0] for number, it in pair.origins.items() if len(it) == 1 and it[0] in plain
    }
    olds = {f"old{line}": line for line in stops.values()}
    news = {f"new{number}": line for number, line in stops.items()}
    old = linked(tmp_path, way, "old", pair.compiled, olds).stops(tmp_path)
    new = linked(tmp_path, way, "new", pair.laid, news).stops(tmp_path)
    assert len(old) == STOPS and old == new
    assert json.dumps(old).count("<optimized out>") < json.dumps(old).count('", "')


def test_a_wrong_value_would_be_seen(tmp_path: Path, monkeypatch: pytest.MonkeyPatch) -> None:
    """With the ranges as the compiler has them, in the new order, the comparison fails."""
    monkeypatch.setattr("fptools.layout.debug_ranges.Debugged.pieces", lambda *_: None)
    with pytest.raises(AssertionError):
        test_gdb_shows_the_same_values(tmp_path, "triple", Way("-O2", True), 5)
