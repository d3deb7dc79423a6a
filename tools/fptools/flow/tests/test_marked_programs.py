"""Odd programs with loop marks: no bound is below a run, however they are compiled. Each case in
data/marks has claims that are true; its first line says what it is."""
from __future__ import annotations

import shutil
from collections import Counter
from collections.abc import Sequence
from pathlib import Path

import pytest
from fptools.testing.common import TOOLS

from fptools.testing.marked_programs import (
    LD, LEVELS, LLD, Mode, Program, Seen, Way, runner, seen_loops,
)  # fmt: skip

MARKS = TOOLS / "fptools/testing/marks"
CASES = sorted(it for it in MARKS.glob("*.c"))
CPP = sorted(MARKS.glob("*.cpp"))
STEPS = 2_000_000
NOT_FOR_CLANG = ("setjmp", "relative_jump")
"""clang has no __builtin_setjmp for this core, and doesn't assemble a jump by a number."""

WAYS = [
    *(Way("gcc", level) for level in LEVELS),
    *(
        Way("gcc", level, mode)
        for level in ("-O1", "-O2", "-O3")
        for mode in (Mode.PLAIN, Mode.DIRECT)
    ),
    Way("gcc", "-O2", more=("-funroll-loops", "-ftracer", "-floop-interchange", "-fno-tree-ch")),
    Way(
        "gcc",
        "-O3",
        Mode.PLAIN,
        ("-funroll-all-loops", "-msave-restore", "-freorder-blocks-and-partition"),
    ),
    Way("gcc", "-O2", Mode.LTO),
    *(Way("clang", level) for level in ("-O0", "-O1", "-O2", "-O3", "-Os")),
    Way("clang", "-O2", Mode.DIRECT, ("-funroll-loops",)),
]


def needs(*ways: Way) -> None:
    for way in ways:
        for program in (way.command[0], way.linker[0], "cc"):
            if shutil.which(program) is None:
                pytest.skip(f"{program} isn't installed")


def together(folder: Path, sources: Sequence[Path], way: Way) -> list[Seen]:
    """The loops of some cases in one executable, whose functions have the names of the cases."""
    texts = []
    for source in sources:
        own = folder / source.name
        own.write_text(f"#define NAME {source.stem}\n{source.read_text()}")
        texts.append(own)
    calls = "".join(f"    {it.stem}_main();\n" for it in sources)
    c = 'extern "C" ' if "++" in way.compiler else ""
    declared = "".join(f"{c}void {it.stem}_main(void);\n" for it in sources)
    end = "    *(volatile int *)0x40000004 = 1;\n    for (;;)\n        ;\n"
    first = folder / "first.c"
    first.write_text(f"{declared}{c}void main0(void)\n{{\n{calls}{end}}}\n")
    elf = Program(folder, [first, *texts], ["-I", MARKS]).built(way)
    return seen_loops(elf, runner(folder), steps=STEPS)


def never_below(seen: list[Seen]) -> Counter[str]:
    """The numbers of loops by what their comparison says."""
    for it in seen:
        assert it.kind != "below", f"{it.stated.function}: {it}"
    found = Counter(it.kind for it in seen)
    assert found["exact"] + found["above"] > 0
    return found


@pytest.mark.parametrize("way", WAYS, ids=str)
def test_no_bound_of_c_is_below_a_run(tmp_path: Path, way: Way) -> None:
    needs(way)
    cases = [it for it in CASES if way.compiler == "gcc" or it.stem not in NOT_FOR_CLANG]
    found = never_below(together(tmp_path, cases, way))
    assert found["exact"] + found["above"] > len(cases) / 6


@pytest.mark.parametrize(
    "way", [Way(compiler, level) for compiler in ("g++", "clang++") for level in LEVELS], ids=str
)
def test_no_bound_of_cpp_is_below_a_run(tmp_path: Path, way: Way) -> None:
    needs(way)
    never_below(together(tmp_path, CPP, way))


LINKERS = ([*LLD, "--icf=all"], LLD, [*LLD, "--gc-sections"], [*LD, "--gc-sections"])


@pytest.mark.parametrize("linker", LINKERS, ids=" ".join)
@pytest.mark.parametrize("compiler", ["gcc", "clang"])
def test_linkers(tmp_path: Path, compiler: str, linker: Sequence[str]) -> None:
    """Functions of the same code with other claims, and functions that a linker drops."""
    way = Way(compiler, "-O2", Mode.PLAIN, ("-ffunction-sections",), tuple(linker))
    needs(way)
    never_below(together(tmp_path, [MARKS / "folded.c", MARKS / "triangle.c"], way))


EACH = """
static inline u32 each(u32 n)
{
    u32 s = 0;
    FP_LOOP(i, MOST);
    for (u32 i = 0; i < n % (MOST + 1); i++) {
        FP_ROUND(i);
        s += a[i];
    }
    return s;
}
"""
UNITS = (
    '#define MOST 3\n#include "case.h"\n#include "each.h"\nu32 g(u32 n) { return each(n); }\n',
    '#define MOST 12\n#include "case.h"\n#include "each.h"\nu32 g(u32);\n'
    "void main0(void) { for (;;) count += each(FP_PORT) + g(FP_PORT); }\n",
)
"""Two units of a static function, with another claim each."""


def of_one_name(folder: Path, way: Way, numbers: Sequence[int]) -> list[Seen]:
    """The loops of the two units, whose files have one name, and numbers for FP_FLOW_DIRECT."""
    (folder / "each.h").write_text(EACH)
    sources = []
    for number, text in enumerate(UNITS):
        own = folder / str(number)
        own.mkdir()
        (own / "x.c").write_text(text)
        sources.append(own / "x.c")
    program = Program(folder, sources, ["-I", MARKS, "-DNAME=x"], numbers)
    return seen_loops(program.built(way), runner(folder))


@pytest.mark.parametrize("mode", list(Mode), ids=lambda it: str(it.value))
@pytest.mark.parametrize("level", LEVELS)
def test_a_header_in_two_units_of_one_name(tmp_path: Path, level: str, mode: Mode) -> None:
    way = Way("gcc", level, mode)
    needs(way)
    seen = of_one_name(tmp_path, way, (1, 2))
    assert {it.kind for it in seen} <= {"exact", "above", "unknown", "never entered"}
    assert level == "-O3" or any(it.kind in ("exact", "above") for it in seen)


@pytest.mark.parametrize("mode", [Mode.DIRECT, Mode.LTO], ids=lambda it: str(it.value))
def test_units_that_nothing_tells_apart_have_no_claims(tmp_path: Path, mode: Mode) -> None:
    way = Way("gcc", "-Os", mode)
    needs(way)
    seen = of_one_name(tmp_path, way, (1, 1))
    assert {it.kind for it in seen} == {"unknown"}
    assert any("FP_FLOW_DIRECT" in it.stated.stated.doubt for it in seen)


INLINE = "inline" + EACH.removeprefix("\nstatic inline")
IN_TWO_UNITS = (
    '#define MOST 5\n#include "case.h"\n#include "each.h"\nu32 (*volatile p)(u32) = each;\n'
    "u32 g(u32 n) { return each(n) + p(n); }\n",
    '#define MOST 5\n#include "case.h"\n#include "each.h"\nu32 g(u32);\n'
    "u32 (*volatile q)(u32) = each;\n"
    'extern "C" void main0(void) { for (;;) count += q(FP_PORT) + g(FP_PORT) + each(FP_PORT); }\n',
)
"""Two units of C++ with one inline function, of which the linker keeps one copy."""


@pytest.mark.parametrize("mode", [Mode.LAID, Mode.DIRECT], ids=lambda it: str(it.value))
@pytest.mark.parametrize("compiler", ["g++", "clang++"])
@pytest.mark.parametrize(
    "linker", [LD, LLD, (*LD, "--gc-sections"), (*LLD, "--gc-sections")], ids=" ".join
)
def test_a_function_that_the_linker_keeps_once(
    tmp_path: Path, linker: Sequence[str], compiler: str, mode: Mode
) -> None:
    way = Way(compiler, "-O2", mode, linker=tuple(linker))
    needs(way)
    (tmp_path / "each.h").write_text(INLINE)
    sources = []
    for number, text in enumerate(IN_TWO_UNITS):
        sources.append(tmp_path / f"{number}.cpp")
        sources[-1].write_text(text)
    seen = seen_loops(
        Program(tmp_path, sources, ["-I", MARKS, "-DNAME=x"]).built(way), runner(tmp_path)
    )
    assert all(it.kind != "below" for it in seen)
    (each,) = [it for it in seen if it.stated.function.startswith("_Z4each")]
    # GNU ld keeps the lines of the other copy: then it isn't certain whose claim it is.
    is_known = linker[0] != LD[0] or each.stated.bound is not None
    assert not is_known or each.stated.bound == 4


DEEP = """
void deeper(u32 n);
inline void each(u32 n, u32 is_deep)
{
    FP_LOOP(i, 3);
    for (u32 i = 0; i < n; i++) {
        FP_ROUND(i);
        count += a[i & 63];
        if (is_deep)
            deeper(2);
    }
}
"""


@pytest.mark.parametrize("mode", [Mode.LAID, Mode.DIRECT], ids=lambda it: str(it.value))
@pytest.mark.parametrize("compiler", ["g++", "clang++"])
def test_an_inline_function_that_another_unit_inlines_too(
    tmp_path: Path, compiler: str, mode: Mode
) -> None:
    """Three rounds at most are between two passes of its FP_LOOP: the loop in main0 makes 40, as
    another unit passes FP_LOOP in each."""
    way = Way(compiler, "-O2", mode, linker=LLD)
    needs(way)
    (tmp_path / "deep.h").write_text(DEEP)
    texts = (
        'extern "C" void main0(void) { for (;;) each(FP_PORT % 41, 1); }\n',
        "void deeper(u32 n) { each(n, 0); }\n",
    )
    sources = []
    for number, text in enumerate(texts):
        sources.append(tmp_path / f"{number}.cpp")
        sources[-1].write_text(f'#include "case.h"\n#include "deep.h"\n{text}')
    program = Program(tmp_path, sources, ["-I", MARKS, "-DNAME=x"])
    seen = seen_loops(program.built(way), runner(tmp_path), steps=3_000_000)
    assert all(it.kind != "below" for it in seen)
    # lld keeps a call of two words, behind which nothing is known.
    assert mode is Mode.DIRECT or any(it.backs >= 38 for it in seen)
