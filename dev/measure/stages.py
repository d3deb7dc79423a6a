"""Counts the program's instructions per simulated cycle, by the parts of a cycle: stages, the loop around them, lines.

The stages are inlined into one function. So the script adds debug information to the program's LLVM module, one line for each
function. The compiled program then says of each instruction in which functions it was written. valgrind runs it twice, over
N cycles and over 1, and the difference is divided by N - 1. So the start is left out. An instruction of a function that isn't
inlined counts for that function, whoever calls it: the C library's copies of lines aren't among the lines.

The module is what `rattle build` hands to the clang of its --toolchain. A script of that name, in a copy of the folder, can
keep it. Needs valgrind and llvm-symbolizer (Debian: llvm). It isn't part of the gate."""
import argparse
import enum
import json
import re
import shutil
import subprocess
import sys
import tempfile
from collections.abc import Iterable, Iterator, Mapping, Sequence
from dataclasses import dataclass, field
from pathlib import Path

from dev.measure import measure

SETUPS = list(dict.fromkeys(where.partition(":")[0] for where in measure.RUNS))

COLUMNS = {
    'Ir': 'instructions', 'Dr': 'reads', 'Dw': 'writes', 'Bc': 'branches', 'Bcm': 'mispredicted',
    'Bi': 'indirect', 'Bim': 'mispredicted',
}  # fmt: skip
"""What is counted, by callgrind's names. Reads and writes are of memory. Branches are conditional ones, then indirect ones,
each with those that callgrind's model of a processor mispredicts."""


class Part(enum.StrEnum):
    """The parts of a cycle, in its order. Each is a row of the table."""

    PICK = "pick"
    FETCH = "F"
    SOURCES = "D: which registers a word reads"
    VALUES = "D: the values of those registers"
    DECODE = "D: the rest"
    DECODING = "E: decoding"
    GUARD = "E: may it fetch, load, store"
    LEAVE = "E: its stage register and redirect"
    RARE = "E: rare instructions"
    EXECUTE = "E: the rest"
    LATE = "M: late values"
    MEMORY = "M: the rest"
    WRITE_BACK = "W"
    STEP = "the step around the stages"
    LOOP = "the loop around the step"
    LINES = "lines"
    REST = "the rest (start, devices, C library)"


RULES: Sequence[tuple[Part, str]] = (
    (Part.LINES, r"^trace_print::|^fp_io::|::Machine::set_(own_)?line"),
    (Part.WRITE_BACK, r"^pipeline_core::writeback::"),
    (Part.LATE, r"^pipeline_core::memory_stage::late_effect"),
    (Part.MEMORY, r"^pipeline_core::memory_stage::"),
    (Part.SOURCES, r"^hart_exec::word_sources::"),
    (Part.VALUES, r"^pipeline_core::decode::sources"),
    (Part.DECODE, r"^pipeline_core::decode::"),
    (
        Part.RARE,
        r"^pipeline_core::execute::execute_(rare|out_of_line)|^hart_exec::(csr::|execute::execute_some::<=1)",
    ),
    (Part.DECODING, r"^rv_decode::"),
    (Part.GUARD, r"::may_(fetch|load|store)"),
    (Part.LEAVE, r"^pipeline_core::execute::(put_result|put_executed|flush_of)"),
    (Part.EXECUTE, r"^(pipeline_core::execute|hart_exec)::"),
    (Part.FETCH, r"^pipeline_core::fetch::"),
    (Part.PICK, r"^slot_scheduler::picking::|::Clock::now"),
    (Part.STEP, r"^pipeline_core::(pipe|retiring|stages|stage_register)::"),
    (
        Part.LOOP,
        r"^machine::(state::Machine::(?!load|dump)|leaving::|run::|sleeping::|thread_lines::|unseen::)",
    ),
)
"""The part of an instruction is that of the first rule whose pattern is in the name of a function around it. So a part stands
before those that contain it. Const arguments are in the names: `::<=1` is a rare instruction's execution."""


def part_of(functions: Iterable[str]) -> Part:
    """The part of an instruction, by the names of the functions in which it was written, one inlined into the next."""
    names = list(functions)
    return next(
        (part for part, pattern in RULES if any(re.search(pattern, name) for name in names)),
        Part.REST,
    )


# ---------------------------------------------------------------- the instrumented program

OPTIONS = """-march=x86-64 -mllvm -no-trap-after-noreturn -ffunction-sections -fdata-sections -mllvm -trap-unreachable
    -mllvm -no-x86-call-frame-opt -mllvm -disable-machine-licm -mllvm -disable-postra-machine-licm
    -mllvm -sink-common-insts=false --no-default-config -no-canonical-prefixes -fintegrated-cc1 -fno-crash-diagnostics
    -Werror -fPIE -O3 -Xclang -fmerge-functions -mllvm -mergefunc-use-aliases""".split()
"""The options with which rattle compiles a program's module."""

TARGET = "x86_64-unknown-linux-gnu"

FIRST_NODE = 1_000_000
"""The number of the first metadata node that is added to a module. The module has fewer nodes."""

UNIT = 'language: DW_LANG_C99, producer: "stages.py", isOptimized: true, runtimeVersion: 0, emissionKind: FullDebug'
FUNCTION = (
    "line: 1, scopeLine: 1, spFlags: DISPFlagDefinition | DISPFlagLocalToUnit | DISPFlagOptimized"
)

FUNCTION_NAME = re.compile(r'@("(?:[^"]|\\")*"|[\w.$]+)\(')
"""The name in the first line of a function of a textual module."""


class Nodes:
    """The debug information that is added to a module: a file, and a function and a place in it for each function."""

    def __init__(self) -> None:
        self.texts: list[str] = []
        self.file = self.add('!DIFile(filename: "module", directory: "/")')
        self.unit = self.add(f"distinct !DICompileUnit(file: {self.file}, {UNIT})")
        self.type = self.add("!DISubroutineType(types: !{null})")

    def add(self, text: str) -> str:
        """Adds a node, and returns the name by which others refer to it."""
        name = f"!{FIRST_NODE + len(self.texts)}"
        self.texts.append(f"{name} = {text}")
        return name

    def add_function(self, head: str) -> tuple[str, str]:
        """The nodes of the function with this first line, and of the place of all its instructions."""
        found = FUNCTION_NAME.search(head)
        if found is None or not head.endswith("{"):
            sys.exit(f"not the first line of a function: {head[:200]}")
        name = found[1].strip('"').replace("\\", "/")
        of_file = f"scope: {self.file}, file: {self.file}, type: {self.type}, unit: {self.unit}"
        function = self.add(f'distinct !DISubprogram(name: "{name}", {of_file}, {FUNCTION})')
        return function, self.add(f"!DILocation(line: 1, column: 1, scope: {function})")

    def lines(self) -> Iterator[str]:
        """The lines at the end of the module."""
        flags = [
            self.add('!{i32 2, !"Debug Info Version", i32 3}'),
            self.add('!{i32 7, !"Dwarf Version", i32 4}'),
        ]
        yield f'!llvm.module.flags = !{{{", ".join(flags)}}}'
        yield f"!llvm.dbg.cu = !{{{self.unit}}}"
        yield from self.texts


def with_places(module: Iterable[str]) -> Iterator[str]:
    """The lines of a textual module, with a place at each instruction. These begin with two spaces, and lines that go on with
    one have more. A switch ends at its bracket."""
    nodes = Nodes()
    place, in_switch = "", False
    for line in module:
        if line.startswith("define "):
            function, place = nodes.add_function(line)
            line = f"{line[:-1]}!dbg {function} {{"
        elif line.startswith("  switch ") and line.endswith("["):
            in_switch = True
        elif in_switch and line.strip() == "]":
            line, in_switch = f"{line}, !dbg {place}", False
        elif re.match("  [^ ]", line) and not in_switch:
            line = f"{line}, !dbg {place}"
        yield line
    yield from nodes.lines()


def build(kit: Path, module: Path, program: Path) -> None:
    """Builds the instrumented program from a module, by the kit's compiler. Takes a minute of processor time."""
    tools = kit / "toolchain"
    clang = str(tools / "bin/clang")
    libraries = [str(kit / "c" / name) for name in ("libos_c.a", "liblibc_c.a")]
    with tempfile.TemporaryDirectory() as made:
        plain, marked, code = (
            str(Path(made) / name) for name in ("plain.ll", "marked.ll", "code.o")
        )
        shown = "-S -emit-llvm -x ir -Xclang -disable-llvm-passes".split()
        run([clang, *shown, str(module), "-o", plain])
        lines = Path(plain).read_text().split("\n")
        Path(marked).write_text("".join(f"{line}\n" for line in with_places(lines)))
        compiled = [f"--target={TARGET}", f"--sysroot={tools}", *OPTIONS, *"-c -x ir".split()]
        run([clang, *compiled, marked, "-o", code])
        link = [str(kit / "bin/rattle-link"), "--target", TARGET, "--toolchain", str(tools)]
        run([*link, "-o", str(program), code, *libraries])


def run(command: Sequence[str]) -> None:
    """Runs a tool, whose output goes to standard error; ends the script if it fails."""
    status = subprocess.run(command, stdout=sys.stderr).returncode
    if status != 0:
        sys.exit(f"{command[0]}: status {status}")


def kit_folder(given: str | None) -> Path:
    """The kit's folder: the given one, or that of the page whose path `rt doc` prints."""
    if given:
        return Path(given).resolve()
    if shutil.which("rt") is None:
        sys.exit("rt of the kit that README.md names isn't on the PATH, and there is no --kit")
    said = subprocess.run(["rt", "doc"], stdout=subprocess.PIPE, text=True, check=True).stdout
    return Path(said.strip()).parent


# ---------------------------------------------------------------- counts


def costs(listing: Path) -> Iterator[tuple[str, int, list[int]]]:
    """The lines of callgrind's file: a program or library, the address of an instruction in it, and the counts of COLUMNS. A
    line after `calls=` has the cost of all that is called, and is left out."""
    owner, places, is_call = "", [0], False
    with listing.open() as lines:
        for line in lines:
            if line.startswith("events: "):
                events = line.split()[1:]
                places = [events.index(name) for name in COLUMNS]
            elif line.startswith("ob="):
                owner = line.rstrip("\n").removeprefix("ob=")
            elif line.startswith("calls="):
                is_call = True
            elif line.startswith("0x"):
                address, *counts = line.split()
                if not is_call:
                    # Zeros at the end of a line are left out.
                    yield owner, int(address, 16), [
                        int(counts[i]) if i < len(counts) else 0 for i in places
                    ]
                is_call = False


def names_at(program: Path, addresses: Iterable[int]) -> Iterator[list[str]]:
    """The functions around each address, innermost first."""
    tool = [
        "llvm-symbolizer",
        f"--obj={program}",
        "--inlines",
        "--functions=linkage",
        "--no-demangle",
        "--output-style=JSON",
    ]
    asked = "".join(f"{address:#x}\n" for address in addresses)
    said = subprocess.run(tool, input=asked, stdout=subprocess.PIPE, text=True, check=True).stdout
    for line in said.splitlines():
        yield [frame["FunctionName"] for frame in json.loads(line).get("Symbol", [])]


@dataclass
class Instrumented:
    """The instrumented program, with the parts of those instructions that were asked for, by address."""

    program: Path
    parts: dict[int, Part] = field(default_factory=dict)

    def find_parts(self, addresses: set[int]) -> None:
        """Finds the parts of instructions; ends the script if the program has no names of inlined functions."""
        new = sorted(addresses - self.parts.keys())
        self.parts.update(zip(new, map(part_of, names_at(self.program, new)), strict=True))
        if not any(part is Part.EXECUTE for part in self.parts.values()):
            sys.exit(f"{self.program} has no debug information of functions: build it by --module")

    def counts(self, folder: Path, setup: str, thread: int, cycles: int) -> dict[Part, list[int]]:
        """Runs a setup under callgrind. Returns the counts of each part, in the order of COLUMNS, with those of the start."""
        listing = folder / "listing"
        options = ['--dump-instr=yes', '--dump-line=no', '--compress-pos=no', '--compress-strings=no', '--cache-sim=yes',
                   '--branch-sim=yes', f'--callgrind-out-file={listing}']  # fmt: skip
        words = ["run", f"{setup}.toml", "--thread", str(thread), "--cycles", str(cycles)]
        command: list[str | Path] = ["valgrind", "--tool=callgrind", *options, self.program]
        measure.ended([*command, *words], measure.Item(setup, words), folder)
        found = list(costs(listing))
        self.find_parts({address for owner, address, _ in found if owner == str(self.program)})
        sums = {part: [0] * len(COLUMNS) for part in Part}
        for owner, address, counts in found:
            part = self.parts[address] if owner == str(self.program) else Part.REST
            sums[part] = [old + new for old, new in zip(sums[part], counts, strict=True)]
        return sums

    def per_cycle(
        self, folder: Path, setup: str, thread: int, cycles: int
    ) -> dict[Part, list[float]]:
        """The counts of each part per cycle, in the order of COLUMNS, without those of the start."""
        all_cycles, first = (self.counts(folder, setup, thread, count) for count in (cycles, 1))
        return {
            part: [
                (count - start) / (cycles - 1)
                for count, start in zip(all_cycles[part], first[part], strict=True)
            ]
            for part in Part
        }


def table(
    unit: str, head: Sequence[str], rows: Mapping[Part, Sequence[float]], digits: int
) -> Iterator[str]:
    """The lines of a Markdown table with a row for each part, and their sums as the last one."""
    yield f'| {unit} | {" | ".join(head)} |'
    yield "|---" * (len(head) + 1) + "|"
    sums = [sum(column) for column in zip(*rows.values(), strict=True)]
    for name, figures in [*rows.items(), ("all", sums)]:
        # Adding 0 makes -0.0 a plain zero.
        yield f'| {name} | {" | ".join(f"{round(it, digits) + 0:.{digits}f}" for it in figures)} |'


# ---------------------------------------------------------------- the command line


def arguments() -> argparse.Namespace:
    parser = argparse.ArgumentParser(description=__doc__)
    parser.add_argument(
        "setups", metavar="SETUP", nargs="+", choices=SETUPS, help=f'one of {", ".join(SETUPS)}'
    )
    parser.add_argument("--module", help="the LLVM module of the program, as bitcode or text")
    parser.add_argument(
        "--program", help="the instrumented program; with --module it is built there, and stays"
    )
    parser.add_argument("--kit", help="the kit's folder (default: that of rt doc)")
    parser.add_argument(
        "--cycles",
        type=int,
        default=200_000,
        metavar="N",
        help="cycles, at least 2 (default: 200000)",
    )
    parser.add_argument(
        "--thread",
        type=int,
        default=0,
        choices=range(8),
        metavar="I",
        help="of the lines (default: 0)",
    )
    parser.add_argument(
        "--all-events", action="store_true", help="reads, writes and branches too, of one setup"
    )
    chosen = parser.parse_args()
    if not chosen.module and not chosen.program:
        parser.error("one of --module and --program is needed")
    if chosen.all_events and len(chosen.setups) > 1:
        parser.error("--all-events takes one setup")
    if chosen.cycles < 2:
        parser.error("--cycles is at least 2")
    return chosen


def report(program: Path, chosen: argparse.Namespace, folder: Path) -> Iterator[str]:
    """The lines of the table that was asked for."""
    instrumented = Instrumented(program)
    measure.write_inputs(program, folder)
    found = {
        setup: instrumented.per_cycle(folder, setup, chosen.thread, chosen.cycles)
        for setup in chosen.setups
    }
    if chosen.all_events:
        (rows,) = found.values()
        return table(f"a cycle of {chosen.setups[0]}", list(COLUMNS.values()), rows, 2)
    steps = {part: [rows[part][0] for rows in found.values()] for part in Part}
    return table("instructions a cycle", list(found), steps, 1)


def main() -> None:
    chosen = arguments()
    for tool in ("valgrind", "llvm-symbolizer"):
        if shutil.which(tool) is None:
            sys.exit(f"{tool} isn't installed")
    with tempfile.TemporaryDirectory() as made:
        folder = Path(made)
        program = Path(chosen.program or folder / "program").resolve()
        if chosen.module:
            build(kit_folder(chosen.kit), Path(chosen.module), program)
        elif not program.is_file():
            sys.exit(f"{program} is missing: --module builds it")
        print("\n".join(report(program, chosen, folder)))


if __name__ == "__main__":
    main()
