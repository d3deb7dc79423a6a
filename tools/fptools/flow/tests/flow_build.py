"""Builds C with loop marks for the tests of what bounds loops."""
from __future__ import annotations

import subprocess
import sys
from pathlib import Path
from typing import Sequence

from fptools.testing.common import TOOLS, TOP
from fptools.files.elf import Program
from fptools.flow.inference import Inference, StatedLoop
from fptools.code.section import walk_all

GCC = "riscv64-unknown-elf-gcc -march=rv32im_zicsr -mabi=ilp32".split()
CLANG = "clang --target=riscv32-unknown-elf -march=rv32im -mabi=ilp32 -gdwarf-4".split()
OPTIONS = "-ffreestanding -fno-jump-tables -fno-optimize-sibling-calls -g -w".split()
GCC_OPTIONS = "-fno-reorder-blocks-and-partition -fno-ipa-icf -fno-loop-interchange".split()
LD = "riscv64-unknown-elf-ld -m elf32lriscv -n".split()
LLD = "ld.lld -n".split()
LINK = """OUTPUT_ARCH(riscv)
MEMORY { code (rx) : ORIGIN = 0, LENGTH = 64K  data (rw) : ORIGIN = 0x20000000, LENGTH = 64K }
SECTIONS {
  .code : { *(.text.main0 .text.startup.main0) *(.text .text.* .rodata .rodata.* .srodata .srodata.*) } > code
  .data : { *(.data .data.* .sdata .sdata.*) } > data
  .bss : { *(.bss .bss.* .sbss .sbss.* COMMON) } > data
  /DISCARD/ : { *(.comment .note.* .eh_frame .eh_frame.* .riscv.attributes) }
}
"""
HEAD = """#include "flexpret.h"
typedef uint32_t u32;
#define APART __attribute__((noinline)) static
static volatile u32 count, tries;
static volatile u32 a[64];
"""
MAIN = "void main0(void) { for (;;) f(FP_PORT); }\n"


def run(*command: object) -> str:
    """What a command writes; its messages, if it fails."""
    ran = subprocess.run([str(it) for it in command], capture_output=True, text=True, check=False)
    assert (
        ran.returncode == 0
    ), f"{' '.join(map(str, command))}\n{ran.stdout[-500:]}{ran.stderr[-1500:]}"
    return ran.stdout


def built(
    folder: Path,
    texts: Sequence[str],
    options: Sequence[str] = ("-O2",),
    compiler: Sequence[str] = GCC,
    linker: Sequence[str] = LD,
    is_laid: bool = True,
) -> Path:
    """The executable of some units of C or assembler; laid out, or with the records that the
    compiler writes."""
    folder.mkdir(parents=True, exist_ok=True)
    common = [
        *compiler,
        *OPTIONS,
        *(GCC_OPTIONS if compiler is GCC else []),
        "-I",
        folder,
        "-I",
        TOP / "examples/c",
    ]
    objects = []
    for number, text in enumerate(texts):
        is_assembler = text.startswith("\t.")
        source = folder / f"t{number}.{'s' if is_assembler else 'c'}"
        compiled, laid, made = (folder / f"t{number}.{it}" for it in ("compiled.s", "laid.s", "o"))
        source.write_text(text)
        if is_assembler:
            run(*compiler, "-c", "-o", made, source)
        elif is_laid:
            run(*common, *options, "-S", "-o", compiled, source)
            lay_out = [sys.executable, str(TOOLS / "fp_layout"), str(compiled), "-o", str(laid)]
            subprocess.run(lay_out, check=False, capture_output=True)
            run(*compiler, "-c", "-o", made, laid)
        else:
            run(*common, *options, f"-DFP_FLOW_DIRECT={number + 1}", "-c", "-o", made, source)
        objects.append(made)
    (folder / "link.ld").write_text(LINK)
    libgcc = run(GCC[0], "-march=rv32im", "-mabi=ilp32", "-print-libgcc-file-name").strip()
    run(*linker, "-e", "main0", "-T", folder / "link.ld", "-o", folder / "a.elf", *objects, libgcc)
    return folder / "a.elf"


def stated(elf: Path) -> dict[str, list[StatedLoop]]:
    """What is known of the loops of each function, with the functions that it calls."""
    program = Program(elf)
    inference, entries = Inference(program), {it.start for it in program.functions}
    found: dict[str, list[StatedLoop]] = {}
    for it in program.functions:
        parts = walk_all(program.words, it.start, it.end, program.functions, is_function=True)
        found[it.name] = [
            loop for part, loop in inference.state(parts, entries) if part is parts[0]
        ]
    return found


def bounds(elf: Path, function: str = "f") -> list[int | None]:
    """The bounds of a function's loops, by their heads. A compiler may add to its name."""
    return [
        it.bound
        for name, loops in stated(elf).items()
        if name.split(".")[0] == function
        for it in loops
    ]
