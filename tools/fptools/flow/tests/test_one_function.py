"""Claims of code with several names, or with lines of several units: kept where all are of one
function of the sources, and else none."""
from __future__ import annotations

import re
import sys
from pathlib import Path

import pytest
from fptools.testing.common import TOOLS, TOP
from fptools.flow.tests.flow_build import (
    CLANG,
    GCC,
    HEAD,
    LD,
    LINK,
    LLD,
    MAIN,
    OPTIONS,
    bounds,
    built,
    run,
    stated,
)
from fptools.layout.loop_marks import with_records
from fptools.flow.one_function import is_one, without_twins

GXX = ["riscv64-unknown-elf-g++", *GCC[1:], "-std=c++17", "-fno-exceptions"]
CLANGXX = ["clang++", *CLANG[1:], "-mno-relax", "-std=c++17", "-fno-exceptions"]
WAYS = {"g++": (GXX, LD), "g++ lld": (GXX, LLD), "clang++": (CLANGXX, LLD)}


@pytest.mark.parametrize(
    ("name", "known"),
    [
        ("_ZN1AC1Em", "_ZN1AC*Em"),
        ("_ZN1AD2Ev", "_ZN1AD*Ev"),
        ("_ZN4XC1EC2ERK4XC1E", "_ZN4XC1EC*ERK4XC1E"),
        ("_ZN1AILj1EEC1Ev", "_ZN1AILj1EEC*Ev"),
        ("_ZN3fooIS0_EC2ERKS1_", "_ZN3fooIS0_EC*ERKS1_"),
        ("_ZN1AIL_Z1fEEC1Ev", "_ZN1AIL_Z1fEEC1Ev"),  # not read
        ("_ZN4XC1E3fooEv", "_ZN4XC1E3fooEv"),
        ("_ZN1AD0Ev", "_ZN1AD0Ev"),
        ("C1E", "C1E"),
    ],
)
def test_both_constructors_of_a_class_have_one_name(name: str, known: str) -> None:
    assert without_twins(name) == known


@pytest.mark.parametrize(
    ("names", "is_known"),
    [
        (["f"], True),
        (["f", "g"], False),
        (["f", "f"], False),  # local functions of two units
        (["f", "alias"], True),
        (["alias", "more"], False),  # the names of two local functions f, which aren't known
        (["f", "alias", "more"], True),
        (["_ZN1AC1Em", "_ZN1AC2Em"], True),
        (["_ZN1AC1Em", "_ZN1AC2Em", "_ZN1AC2Em"], False),
        (["_ZN1AC1Em", "_ZN1BC2Em"], False),
        (["_ZN4XC1E3fooEv", "_ZN4XC2E3fooEv"], False),  # classes that are named so
    ],
)
def test_names_of_one_function(names: list[str], is_known: bool) -> None:
    assert is_one(names, {"alias": "f", "more": "f"}) is is_known


HEADER = """struct A { u32 v; A(u32 n); ~A(); u32 inside(u32 n); };
inline APART_ u32 each(u32 n)
{
    u32 s = 0;
    FP_LOOP(k, 5);
    for (u32 i = 0; i < n; i++) { FP_ROUND(k); s += a[i]; }
    return s;
}
inline APART_ u32 A::inside(u32 n)
{
    u32 s = v;
    FP_LOOP(m, 6);
    for (u32 i = 0; i < n; i++) { FP_ROUND(m); s ^= a[i]; }
    return s;
}
"""
ONE = """volatile u32 a[64], count;
APART_ A::A(u32 n) { v = 0; FP_LOOP(c, 4); for (u32 i = 0; i < n; i++) { FP_ROUND(c); v += a[i]; } }
APART_ A::~A() { FP_LOOP(d, 3); for (u32 i = 0; i < v; i++) { FP_ROUND(d); count += a[i]; } }
u32 g(u32);
extern "C" void main0()
{
    for (;;) { A x(FP_PORT); count = each(FP_PORT) + g(3) + x.inside(FP_PORT); }
}
"""
OTHER = "u32 g(u32 n) { A y(n); return each(n) + y.inside(n); }\n"
MORE = """struct B { u32 v; B(u32 n); };
APART_ B::B(u32 n)
{
    v = 0;
    FP_LOOP(c, 40);
    for (u32 i = 0; i < n; i++) { FP_ROUND(c); v += a[i]; }
}
inline APART_ u32 all(u32 n)
{
    u32 s = 0;
    FP_LOOP(k, 50);
    for (u32 i = 0; i < n; i++) { FP_ROUND(k); s += a[i]; }
    return s;
}
u32 g(u32 n) { A y(n); B z(n); return each(n) + all(n) + y.inside(n) + z.v; }
"""


def linked(folder: Path, texts: list[str], way: str, *options: str) -> dict[str, int | None]:
    """The bound of the one loop of each function of a program in C++."""
    (compiler, linker), objects = WAYS[way], []
    head = HEAD.replace("static volatile", "extern volatile")
    head += "#define APART_ __attribute__((noinline))\n"
    (folder / "own.h").write_text(head + HEADER)
    (folder / "link.ld").write_text(LINK)
    for name, text in zip(("one", "other"), texts):
        files = [folder / f"{name}.{it}" for it in ("cpp", "s", "l.s", "o")]
        source, compiled, laid, made = files
        source.write_text(f'#include "own.h"\n{text}')
        flags = [*OPTIONS, "-O1", "-fno-inline", "-ffunction-sections", *options]
        run(*compiler, *flags, "-I", TOP / "examples/c", "-S", "-o", compiled, source)
        run(sys.executable, TOOLS / "fp_layout", compiled, "-o", laid)
        run(*compiler, "-c", "-o", made, laid)
        objects.append(made)
    fold = ["--icf=all"] if texts[1] is MORE and linker is LLD else []
    out = folder / "a.elf"
    run(*linker, *fold, "-e", "main0", "-T", folder / "link.ld", "-o", out, *objects)
    found = {name: loops for name, loops in stated(out).items() if len(loops) == 1}
    return {name.rstrip("jmv"): loops[0].bound for name, loops in found.items()}


@pytest.mark.parametrize("way", WAYS)
@pytest.mark.parametrize("lines", ["-g", "-g0"])
def test_constructors_and_inline_functions_of_two_units(
    tmp_path: Path, way: str, lines: str
) -> None:
    found = linked(tmp_path, [ONE, OTHER], way, lines)
    constructors = {"_ZN1AC1E": 3, "_ZN1AC2E": 3, "_ZN1AD1E": 2, "_ZN1AD2E": 2}
    assert {**found, **constructors, "_Z4each": 4, "_ZN1A6insideE": 5} == found


@pytest.mark.parametrize("lines", ["-g", "-g0"])
def test_constructors_and_inline_functions_that_a_linker_folds(tmp_path: Path, lines: str) -> None:
    found = linked(tmp_path, [ONE, MORE], "clang++", lines)
    folded = ("_ZN1AC1E", "_ZN1AC2E", "_ZN1BC1E", "_ZN1BC2E", "_Z4each", "_Z3all")
    assert {it: found[it] for it in folded} == dict.fromkeys(folded)
    assert found["_ZN1A6insideE"] == 5


LOOP = "{ FP_LOOP(i, 7); for (u32 i = 0; i < (n & 7); i++) { FP_ROUND(i); count += a[i]; } }"
LEAST = (6, 7)
"""The compiler may test before FP_ROUND, or behind it."""


@pytest.mark.parametrize("is_laid", [True, False])
def test_an_alias_of_a_function(tmp_path: Path, is_laid: bool) -> None:
    """fp_layout records the aliases of a unit."""
    text = f'{HEAD}void f(u32 n) {LOOP}\nvoid g(u32) __attribute__((alias("f")));\n'
    main = "void main0(void) { for (;;) { f(FP_PORT); g(FP_PORT); } }\n"
    (loop,) = stated(built(tmp_path, [text + main], ["-Os"], is_laid=is_laid))["f"]
    assert loop.bound in (LEAST if is_laid else [None])
    why = "f and g share their code: write a function in place of an alias, or link without --icf"
    assert is_laid or why in loop.doubt


@pytest.mark.parametrize("attribute", ["weak, ", ""])
def test_a_weak_alias_of_a_function(tmp_path: Path, attribute: str) -> None:
    """Another unit may have a weak function of this name, which the linker takes and folds."""
    declared = f'void g(u32) __attribute__(({attribute}alias("f")));'
    text = f"{HEAD}void f(u32 n) {LOOP}\n{declared}\n"
    main = "void main0(void) { for (;;) { f(FP_PORT); g(FP_PORT); } }\n"
    (loop,) = stated(built(tmp_path, [text + main], ["-Os"]))["f"]
    assert loop.bound in ([None] if attribute else LEAST)


def test_folded_functions_with_an_alias(tmp_path: Path) -> None:
    """The alias is of one of them."""
    text = f'{HEAD}void f(u32 n) {LOOP}\nvoid g(u32) __attribute__((alias("f")));\n'
    text = text.replace("static volatile", "extern volatile")
    main = "void h(u32); void main0(void) { for (;;) { g(FP_PORT); h(FP_PORT); } }\n"
    own = LOOP.replace("(i, 7)", "(i, 70)")
    other = f"volatile u32 a[64], count, tries;\nvoid h(u32 n) {own}\n"
    other = HEAD.replace("static volatile", "extern volatile") + other
    elf = built(
        tmp_path,
        [text + main, other],
        ["-Os", "-ffunction-sections"],
        [*CLANG, "-mno-relax"],
        [*LLD, "--icf=all"],
    )
    found = stated(elf)
    assert [it.bound for name in ("f", "g", "h") for it in found[name]] == [None] * 3


@pytest.mark.parametrize("is_replaced", [False, True])
def test_a_weak_function(tmp_path: Path, is_replaced: bool) -> None:
    """The linker takes that of another unit in its place."""
    weak = f"{HEAD}__attribute__((weak, noinline)) void f(u32 n) {LOOP}\n{MAIN}"
    texts = [weak]
    if is_replaced:
        texts.append(f"{HEAD}void f(u32 n) {LOOP.replace('(i, 7)', '(i, 20)')}\n")
    (bound,) = bounds(built(tmp_path, texts, ["-Os"]))
    assert bound in ((19, 20) if is_replaced else LEAST)


def test_an_alias_is_recorded_once() -> None:
    """Only a global name is: other units may define a weak one, or a local one of their own."""
    text = "\n".join(
        [
            "\t.text\n\t.globl f\n\t.globl g\n\t.weak w\n\t.type f, @function\nf:",
            "\tnop # @fp_flow 0 0 3 8 0 i x.c\n\tret\n\t.size f, .-f",
            "\t.set g, f\n\t.set w,f\n\t.set own,f\n",
        ]
    )
    made = with_records(text)
    assert made.count(".fp_flow_aliases") == 1
    assert re.findall(r'\.asciz "(\w+)", "(\w+)"\n', made) == [("g", "f")]


def test_folded_functions_that_only_lines_tell(tmp_path: Path) -> None:
    """The linker folds a local function into a global one, and drops its symbol."""
    head = HEAD.replace("static volatile", "extern volatile")
    one = f"{head}void one(u32 n) {LOOP}\n"
    own = LOOP.replace("(i, 7)", "(i, 70)")
    main = "void main0(void) { for (;;) { one(FP_PORT); two(FP_PORT); } }\n"
    other = f"{head}volatile u32 a[64], count, tries; void one(u32);\nAPART void two(u32 n) {own}\n"
    compiler = [*CLANG, "-mno-relax"]
    linker = [*LLD, "--icf=all", "--discard-all"]
    options = ["-O0", "-ffunction-sections"]
    found = stated(built(tmp_path, [one, other + main], options, compiler, linker))
    assert "two" not in found
    assert [it.bound for it in found["one"]] == [None]
    assert "one shares its code with another function: link without --icf" in found["one"][0].doubt
