"""Programs of data/stack with their depth: by fp_stack, by a run, and by the compiler's
-fstack-usage."""

import subprocess
from dataclasses import dataclass
from functools import cache
from pathlib import Path

from fptools.testing.common import TOOLS, TOP
from fptools.files.elf import Program
from fptools.files.image import read_image
from fptools.files.setup import read_setup
from fptools.stack.stacks import Stack, Stacks
from fptools.files.trace import read_trace
from fptools.isa.words import OPCODE_AUIPC, OPCODE_LUI, Word

STACK = TOOLS / "fptools/testing/stack"
C = TOP / "examples/c"
LEVELS = ("-O0", "-O1", "-O2", "-O3", "-Os")
GCC = (
    "riscv64-unknown-elf-gcc -march=rv32im_zicsr -mabi=ilp32 -ffreestanding -fno-jump-tables"
    " -fno-reorder-blocks-and-partition -fno-ipa-icf -fstack-usage -g"
)
CLANG = (
    "clang --target=riscv32-unknown-elf -march=rv32im -mabi=ilp32 -ffreestanding -fno-jump-tables"
    " -fstack-usage -gdwarf-4"
)
COMPILERS = {"gcc": GCC, "clang": CLANG}
LINKERS = {"gcc": "riscv64-unknown-elf-ld -m elf32lriscv", "clang": "ld.lld"}
CALLS = "-fno-optimize-sibling-calls"
SETUP = """period = 10
image = "{folder}/own.fpx"
slots = ["T0", "D", "D", "D", "D", "D", "D", "D"]
i_regions = ["T0", "T1", "T2", "T3", "T4", "T5", "T6", "readonly"]
d_regions = ["T0", "T1", "T2", "T3", "T4", "T5", "T6", "shared"]
[[thread]]
id = 0
mode = "hard"
entry = 0
confined = true
inputs = [[0, 7], [4000, 6], [8000, 1], [12000, 255]]
"""


@dataclass
class Built:
    """A program for thread 0, with its setup and image."""

    folder: Path
    elf: Path
    setup: Path
    usage: dict[
        str, int
    ]  # bytes of functions by -fstack-usage, those whose frames have a fixed size

    def stack(self) -> Stack:
        """The stack of thread 0."""
        (found,) = Stacks(
            read_setup(self.setup), read_image(self.setup.with_suffix(".fpx")), Program(self.elf)
        ).all()
        return found

    def lowest(self, flexpret: str, cycles: int = 30_000) -> int:
        """How far sp goes below its first value in a run; the first halves of `la` don't count."""
        words = [flexpret, "run", str(self.setup), "--thread", "0", "--cycles", str(cycles)]
        with subprocess.Popen(words, stdout=subprocess.PIPE) as run:
            assert run.stdout
            values = [
                event.value
                for event in read_trace(run.stdout)
                if event.register == 2 and event.value is not None
                and Word(event.pc, event.bits).opcode not in (OPCODE_AUIPC, OPCODE_LUI)
            ]  # fmt: skip
        return values[0] - min(values) if values else 0


def built(
    flexpret: str,
    folder: Path,
    name: str,
    options: str,
    compiler: str = "gcc",
    laid: bool = False,
    sources: Path = STACK,
) -> Built:
    """Compiles the sources of a name, in C or assembler, and links them with the start of thread
    0."""
    (folder / "start.o").write_bytes(start_of(folder, compiler))
    objects = [folder / "start.o"]
    for source in sorted(sources.glob(f"{name}.[cs]")):
        objects.append(compiled(folder, source, f"{options} -I{C}", compiler, laid))
    elf, image, setup = folder / "own.elf", folder / "own.fpx", folder / "own.toml"
    named = " ".join(it.name for it in objects)
    call(
        f"{LINKERS[compiler]} -n -e 0 -T {C}/flexpret.ld -o {elf} {named}",
        folder,
    )
    image.write_bytes(
        subprocess.run([flexpret, "elf", str(elf)], capture_output=True, check=True).stdout
    )
    setup.write_text(SETUP.format(folder=folder))
    return Built(folder, elf, setup, usage_of(folder))


@cache
def _starts() -> dict[str, bytes]:
    return {}


def start_of(folder: Path, compiler: str) -> bytes:
    """The object in which thread 0 begins, of a compiler."""
    if compiler not in _starts():
        source = folder / "start.s"
        source.write_text((C / "start.s").read_text().replace("start_thread 1", ""))
        call(f"{COMPILERS[compiler]} -c -o start.o start.s", folder)
        _starts()[compiler] = (folder / "start.o").read_bytes()
    return _starts()[compiler]


def compiled(folder: Path, source: Path, options: str, compiler: str, laid: bool = False) -> Path:
    """The object of a source, which is thread 0's."""
    made = folder / f"t0_{source.name}"
    made.write_bytes(source.read_bytes())
    command = f"{COMPILERS[compiler]} {options}" if source.suffix == ".c" else COMPILERS[compiler]
    if laid:
        call(f"{command} {CALLS} -S -o {made.stem}.compiled.s {made.name}", folder)
        call(f"{TOOLS}/fp_layout {made.stem}.compiled.s -o {made.stem}.s", folder)
        made, command = made.with_suffix(".s"), COMPILERS[compiler]
    call(f"{command} -c -o {made.stem}.o {made.name}", folder)
    return made.with_suffix(".o")


def call(command: str, folder: Path) -> None:
    ran = subprocess.run(command.split(), cwd=folder, capture_output=True, text=True, check=False)
    assert ran.returncode == 0, f"{command}: {ran.stderr}"


def usage_of(folder: Path) -> dict[str, int]:
    """The bytes of frames that -fstack-usage states, by function."""
    rows = [line.split("\t") for it in folder.glob("*.su") for line in it.read_text().splitlines()]
    return {place.split(":")[-1]: int(size) for place, size, kind in rows if kind == "static"}
