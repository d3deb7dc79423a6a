"""Compiles the shapes in data/layout, in the compiler's order and laid out, and measures them.

For each there are the independent check, the model's refusal and bound, and the longest of many executions."""

import subprocess
from collections.abc import Iterable, Sequence
from dataclasses import dataclass, field
from functools import cached_property
from pathlib import Path

from fptools.checkout import TOP
from fptools.layout.assembly import Assembly
from fptools.layout.layout import Options, lay_out
from fptools.code.section import walk
from fptools.testing.layout_check import Executable, Place, Seen, look
from model.bounds import Bounds
from model.graphs import Graph, Part
from model.setups import Loop, read_setup

DATA = Path(__file__).resolve().parent / "layout"
SHAPES = sorted({it.stem for it in DATA.glob("*.c")} - {"quick_run", "loop_run"})
BATCHES = (SHAPES[::2], SHAPES[1::2])
"""Shapes that fit into an image together."""

LEVELS = ("-O1", "-O2", "-Os", "-O3")
VISITS = 4000

RECIPE = ("-fno-jump-tables", "-fno-optimize-sibling-calls", "-fno-reorder-blocks-and-partition")
GCC = ("riscv64-unknown-elf-gcc", "-march=rv32im_zicsr", "-mabi=ilp32")
CLANG = (
    "clang",
    "--target=riscv32-unknown-elf",
    "-march=rv32im",
    "-mabi=ilp32",
    "-Wno-unknown-attributes",
)
LINK = ("riscv64-unknown-elf-ld", "-m", "elf32lriscv", "-z", "max-page-size=4096")

SETUP = """\
version = 2
period = 10
image = "image.fpx"
slots = {slots}
i_regions = ["T0", "T0", "T0", "T0", "T0", "T0", "T0", "T0"]
d_regions = ["T0", "T0", "T0", "T0", "T0", "T0", "T0", "T0"]
[[thread]]
id = 0
mode = "hard"
entry = 0
"""
FOURTH = '["T0", "S", "T1", "S", "D", "D", "D", "D"]'
EACH = '["T0", "D", "D", "D", "D", "D", "D", "D"]'


@dataclass(frozen=True)
class Way:
    """How the shapes are compiled."""

    level: str
    is_section: bool  # else each is a function
    is_laid: bool = True
    rotate: int = 0
    is_clang: bool = False
    more: tuple[str, ...] = ()
    is_marked: bool = False  # with loop marks

    def __str__(self) -> str:
        kind = "section" if self.is_section else "calls"
        return " ".join(
            ["clang" * self.is_clang, self.level, kind, "" if self.is_laid else "as compiled"]
        ).strip()

    def compiler(self) -> list[str]:
        flags = [
            self.level,
            "-ffreestanding",
            "-fno-jump-tables",
            "-fno-optimize-sibling-calls",
            *self.more,
        ]
        flags += ["-I", str(DATA), "-I", str(TOP / "examples/c")] + ["-DSECTION"] * self.is_section
        flags += ["-DUNMARKED"] * (not self.is_marked)
        return [*CLANG, *flags] if self.is_clang else [*GCC, *flags, RECIPE[2]]

    def assembler(self) -> tuple[str, ...]:
        """Each compiler's assembly has directives of its own."""
        return CLANG if self.is_clang else GCC


def run(command: Sequence[object], folder: Path | None = None) -> str:
    """What a command writes; an error where it fails."""
    ran = subprocess.run(
        [str(it) for it in command], cwd=folder, capture_output=True, text=True, check=False
    )
    assert ran.returncode == 0, f"{' '.join(map(str, command))}\n{ran.stdout}{ran.stderr}"
    return ran.stdout


def build(
    folder: Path,
    way: Way,
    names: Iterable[str] = SHAPES,
    is_counted: bool = False,
    home: Path = DATA,
) -> Path:
    """An executable of shapes: an image of the machine, or with counted visits for qemu-riscv32."""
    folder.mkdir(parents=True, exist_ok=True)
    sources = {it: home / f"{it}.c" for it in names} | {"runtime": DATA / "runtime.inc"}
    if is_counted:
        sources["counted"] = folder / "counted.c"
        sources["counted"].write_text(counted_main(names))
    objects = []
    for name, source in sources.items():
        assembly, built = folder / f"{name}.s", folder / f"{name}.o"
        run([*way.compiler(), *["-DCOUNTED"] * is_counted, "-x", "c", "-S", "-o", assembly, source])
        if way.is_laid and name != "counted":
            laid = lay_out(Assembly(assembly.read_text()), Options(rotate=way.rotate))
            assert not laid.kept, f"{name}: {laid.kept}"
            assembly.write_text(laid.text)
        run([*way.assembler(), "-c", "-o", built, assembly])
        objects.append(built)
    if not is_counted:
        starts, built = folder / "starts.s", folder / "starts.o"
        starts.write_text("".join(START.format(name=it) for it in names))
        run([*GCC, "-c", "-o", built, starts])
        objects.append(built)
    out = folder / ("counted.elf" if is_counted else "all.elf")
    script = DATA / ("counted.ld" if is_counted else "image.ld")
    first = "_start" if is_counted else f"main_{next(iter(names))}"
    run([*LINK, *["-n"] * (not is_counted), "-T", script, "-e", first, "-o", out, *objects])
    return out


START = (
    "        .globl start_{name}\nstart_{name}:\n        lui sp, 0x20010\n        j main_{name}\n"
)
"""Where the machine begins with a shape: quick_run sets the stack itself."""


def counted_main(names: Iterable[str]) -> str:
    """A program that goes through each shape, and writes a line with its hash."""
    calls = "".join(f'    show("{it}", main_{it}({VISITS}));\n' for it in names)
    declared = "".join(f"uint64_t main_{it}(uint32_t);\n" for it in names)
    return f"""\
#include <stdint.h>
{declared}
uint32_t port __attribute__((section(".port")));
static uint32_t call(uint32_t number, uint32_t a, uint32_t b, uint32_t c)
{{
    register uint32_t a0 __asm__("a0") = a, a1 __asm__("a1") = b, a2 __asm__("a2") = c, a7 __asm__("a7") = number;
    __asm__ volatile("ecall" : "+r"(a0) : "r"(a1), "r"(a2), "r"(a7) : "memory");
    return a0;
}}
static void show(const char *name, uint64_t hash)
{{
    char line[64];
    uint32_t k = 0;
    for (; name[k]; k++)
        line[k] = name[k];
    line[k++] = ' ';
    for (int bit = 60; bit >= 0; bit -= 4)
        line[k++] = "0123456789abcdef"[hash >> bit & 15];
    line[k++] = '\\n';
    call(64, 1, (uint32_t)line, k);
}}
void _start(void)
{{
{calls}    call(93, 0, 0, 0);
}}
"""


def counted_hashes(executable: Path) -> dict[str, str]:
    """What qemu-riscv32 makes of each shape."""
    lines = run(["qemu-riscv32", executable]).splitlines()
    return {name: digest for name, digest in (line.split() for line in lines)}


def quick_runner(folder: Path) -> Path:
    """The program that quick_run.c is compiled to."""
    out = folder / "quick_run"
    if not out.exists():
        run(["cc", "-O2", "-o", out, DATA / "quick_run.c"])
    return out


@dataclass(frozen=True)
class Ran:
    """A run: the cycles of its longest execution, where each fourth cycle is the thread's and where each is; the hash of
    its port stores; and how often each loop goes back, at most."""

    at_fourth: int
    at_each: int
    digest: str
    rounds: tuple[int, ...]


@dataclass
class Shape:
    """A shape in an executable."""

    executable: Executable
    name: str
    parts: dict[int, Seen] = field(
        default_factory=dict
    )  # the section and the functions that it reaches

    def __post_init__(self) -> None:
        symbols, functions = self.executable.symbols, self.executable.functions
        self.begin, self.end = symbols[f"{self.name}_begin"], symbols[f"{self.name}_end"]
        self.entry = functions[f"main_{self.name}"][0]
        self.start = symbols.get(f"start_{self.name}", self.entry)
        ends = {
            first: end
            for first, end in self.executable.ends.items()
            if not first <= self.begin < end
        }
        ahead = [(self.begin, self.end, False)]
        while ahead:
            first, end, is_function = ahead.pop()
            if first not in self.parts:
                seen = self.parts[first] = look(
                    self.executable.words, first, end, ends, is_function
                )
                ahead += [(callee, ends[callee], True) for callee in sorted(seen.callees)]

    @property
    def routines(self) -> list[Place]:
        """The first and last words of the functions that it calls."""
        return sorted(
            (it.first, it.end - 4) for it in self.parts.values() if it.first != self.begin
        )

    @property
    def faults(self) -> list[str]:
        """What the independent check finds: ways out, and loops that can't be stated."""
        found = []
        for seen in self.parts.values():
            found += ["leaves: %x to %x" % it for it in seen.leaves] + [
                "%x: %s" % it for it in seen.stops
            ]
            found += [seen.stated()[1]] if seen.stated()[1] else []
            found += [] if seen.reaches_end else ["%x never reaches its end" % seen.first]
        return found

    @cached_property
    def loops(self) -> list[Place]:
        return [loop for seen in self.parts.values() for loop in seen.stated()[0]]

    @property
    def loops_by_tool(self) -> list[Place]:
        """The heads of the loops, and the words that go back to them, as fp_loops finds them."""
        words, heads = self.executable.words, [it for it in self.parts if it != self.begin]
        found = [walk(words, it.first, it.end, heads).loops for it in self.parts.values()]
        return sorted((loop.head, loop.last) for loops in found for loop in loops)

    def ran(self, runner: Path, image: Path, visits: int = VISITS) -> Ran:
        command = [runner, image, self.entry, self.begin, self.end, visits]
        fourth, each, digest, *rounds = run(
            [*command, *(it for loop in self.loops for it in loop)]
        ).split()
        return Ran(int(fourth), int(each), digest, tuple(map(int, rounds)))

    def graph(self, rounds: Sequence[int]) -> Graph:
        """The model's control graph, with loops that go back so often."""
        words = self.executable.words
        routines = [Part(first, last + 4, True) for first, last in self.routines]
        loops = [Loop(*loop, count) for loop, count in zip(self.loops, rounds)]
        return Graph(lambda at: words.get(at, 0), Part(self.begin, self.end), routines, loops)

    def refusal(self) -> str:
        """Why the analyser refuses it, by the model; empty where it doesn't."""
        refused = self.graph([1] * len(self.loops)).refusal()
        return "%s at %x" % (refused[0].name, refused[1]) if refused else ""

    def bounds(self, ran: Ran) -> tuple[int, int]:
        """The model's bounds with a run's loop counts, where each fourth cycle is the thread's and where each is."""
        fourth, each = (Bounds(self.graph(ran.rounds), slots, 0).largest_cost() for slots in SLOTS)
        return fourth, each


SLOTS = tuple(read_setup(SETUP.format(slots=slots).encode()).slots for slots in (FOURTH, EACH))


def shapes(executable: Path, names: Iterable[str] = SHAPES) -> dict[str, Shape]:
    read = Executable(executable)
    return {name: Shape(read, name) for name in names}
