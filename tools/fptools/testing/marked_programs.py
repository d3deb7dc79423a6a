"""Builds C with loop marks in many ways, runs it, and compares the bounds of its loops with what
the run counts."""

import subprocess
from collections.abc import Sequence
from dataclasses import dataclass
from enum import Enum
from functools import lru_cache
from pathlib import Path

from fptools.testing.common import TOP
from fptools.layout.assembly import Assembly
from fptools.layout.layout import Options, lay_out
from fptools.layout.loop_marks import with_records
from fptools.testing.layout_check import Executable
from fptools.testing.mark_bounds import LoopBound, bounds_of

DATA = Path(__file__).resolve().parent / "layout"
COMMON = ("-ffreestanding", "-fno-jump-tables", "-w")
GCC = ("riscv64-unknown-elf-gcc", "-march=rv32im_zicsr", "-mabi=ilp32")
GPP = ("riscv64-unknown-elf-g++", "-x", "c++", *GCC[1:], "-fno-exceptions", "-fno-rtti")
CLANG = ("clang", "--target=riscv32-unknown-elf", "-march=rv32im", "-mabi=ilp32")
CLANGPP = ("clang++", "-x", "c++", *CLANG[1:], "-fno-exceptions", "-fno-rtti")
COMPILERS = {"gcc": GCC, "g++": GPP, "clang": CLANG, "clang++": CLANGPP}
LD = ("riscv64-unknown-elf-ld", "-m", "elf32lriscv", "-n")
LLD = ("ld.lld", "-n")
LEVELS = ("-O0", "-Og", "-O1", "-O2", "-O3", "-Os")
ANY_PORT = 0xFFFFFFFF
"""A port that shows another word each time."""

LINK = """\
OUTPUT_ARCH(riscv)
MEMORY { code (rx) : ORIGIN = 0, LENGTH = 64K  data (rw) : ORIGIN = 0x20000000, LENGTH = 64K }
SECTIONS {
  .code : { *(.text.main0 .text.startup.main0)
            *(.text .text.* .rodata .rodata.* .srodata .srodata.*) } > code
  .data : { *(.data .data.* .sdata .sdata.*) } > data
  .bss : { *(.bss .bss.* .sbss .sbss.* COMMON) } > data
  /DISCARD/ : { *(.comment .note.* .eh_frame .eh_frame.* .riscv.attributes) }
}
"""


class Mode(Enum):
    """How the marks become records."""

    LAID = "laid"  # by fp_layout
    PLAIN = "plain"  # in the compiler's order
    DIRECT = "direct"  # by the compiler, with a `nop` each
    LTO = "lto"  # the same, and all files are compiled as one


@dataclass(frozen=True)
class Way:
    """How a program is built."""

    compiler: str = "gcc"
    level: str = "-O2"
    mode: Mode = Mode.LAID
    more: tuple[str, ...] = ()
    linker: tuple[str, ...] = LD
    has_lines: bool = True

    def __str__(self) -> str:
        return " ".join([self.compiler, self.level, *self.more, self.mode.value, *self.linker[2:]])

    @property
    def command(self) -> list[str]:
        level = "-O1" if self.level == "-Og" and "clang" in self.compiler else self.level
        lines = ["-gdwarf-4"] * self.has_lines
        return [*COMPILERS[self.compiler], *COMMON, level, *lines, *self.more]


class NoBuild(Exception):
    """A program isn't built, or doesn't run to its end. The text says why."""


def run(command: Sequence[object], folder: Path | None = None, seconds: float = 120) -> str:
    """What a command writes. Raises NoBuild."""
    words = [str(it) for it in command]
    try:
        ran = subprocess.run(words, cwd=folder, capture_output=True, text=True, timeout=seconds)
    except subprocess.TimeoutExpired:
        raise NoBuild(f"{Path(words[0]).name}: takes more than {seconds} seconds") from None
    if ran.returncode:
        raise NoBuild(f"{' '.join(words)}\n{ran.stdout[-500:]}{ran.stderr[-1500:]}")
    return ran.stdout


@lru_cache
def library() -> str:
    """gcc's library, for divisions of 64 bits and copies."""
    return run([GCC[0], "-march=rv32im", "-mabi=ilp32", "-print-libgcc-file-name"]).strip()


@dataclass
class Program:
    """A program in a folder: its sources, and options of the compiler that all of them have."""

    folder: Path
    sources: Sequence[Path]
    options: Sequence[object] = ()
    numbers: Sequence[int] = ()  # for FP_FLOW_DIRECT; left out, 1, 2, ..

    def built(self, way: Way, entry: str = "main0") -> Path:
        """Its executable. Raises NoBuild."""
        include = [*self.options, "-I", self.folder, "-I", TOP / "examples/c"]
        objects = [
            self._compiled(way, it, number, include) for number, it in enumerate(self.sources)
        ]
        script, out = self.folder / "link.ld", self.folder / "a.elf"
        script.write_text(LINK)
        if way.mode is Mode.LTO:
            linked = [*way.command, "-flto", "-nostdlib", f"-Wl,-T,{script},-e,{entry}"]
            run([*linked, "-o", out, *objects, library()])
        else:
            run([*way.linker, "-e", entry, "-T", script, "-o", out, *objects, library()])
        return out

    def _compiled(self, way: Way, source: Path, number: int, include: Sequence[object]) -> Path:
        assembly, made = self.folder / f"{number}.s", self.folder / f"{number}.o"
        if way.mode in (Mode.DIRECT, Mode.LTO):
            lto = ["-flto"] * (way.mode is Mode.LTO)
            unit = self.numbers[number] if self.numbers else number + 1
            direct = f"-DFP_FLOW_DIRECT={unit}"
            # By its name in its folder: __FILE__ is what the compiler is called with.
            words = [*way.command, *lto, *include, direct, "-c", "-o", made, source.name]
            run(words, source.parent)
            return made
        run([*way.command, *include, "-S", "-o", assembly, source])
        text = assembly.read_text()
        is_laid = way.mode is Mode.LAID
        assembly.write_text(
            lay_out(Assembly(text), Options()).text if is_laid else with_records(text)
        )
        compiler = CLANG if "clang" in way.compiler else GCC
        run([*compiler, "-x", "assembler", "-c", "-o", made, assembly])
        return made


def runner(folder: Path) -> Path:
    """The program that loop_run.c is compiled to."""
    out = folder / "loop_run"
    if not out.exists():
        run(["cc", "-O2", "-o", out, DATA / "loop_run.c"])
    return out


@dataclass(frozen=True)
class Seen:
    """A loop's bound, and how often it went back in a run at most, each time it was entered."""

    stated: LoopBound
    backs: int
    entries: int

    @property
    def kind(self) -> str:
        """What the comparison says; "below" is a fault."""
        if not self.entries:
            return "never entered"
        if self.stated.bound is None:
            return "unknown"
        if self.stated.bound == self.backs:
            return "exact"
        return "above" if self.stated.bound > self.backs else "below"


def seen_loops(
    elf: Path,
    loop_run: Path,
    entry: str = "main0",
    steps: int = 300_000,
    port: int | None = ANY_PORT,
) -> list[Seen]:
    """The loops of an executable that have one head, with a run of it. Without a port the run goes
    to its end."""
    loops = sorted((it for it in bounds_of(elf) if it.words), key=lambda it: it.head)
    image, listed = elf.with_suffix(".image"), elf.with_suffix(".loops")
    executable = Executable(elf)
    image.write_bytes(executable.flat)
    listed.write_text("".join(f"{it.head:x} {len(it.words)} {spelled(it.words)}\n" for it in loops))
    shown = [] if port is None else [port]
    lines = run([loop_run, image, executable.symbols[entry], steps, listed, *shown]).splitlines()
    return [Seen(loop, *map(int, line.split())) for loop, line in zip(loops, lines)]


def spelled(words: frozenset[int]) -> str:
    return " ".join(f"{pc:x}" for pc in sorted(words))
