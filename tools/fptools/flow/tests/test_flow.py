"""The bounds of loops by the marks FP_LOOP and FP_ROUND: the least ones of plain code, and none
where code isn't known."""
from __future__ import annotations

import subprocess
from pathlib import Path

import pytest
from fptools.flow.tests.flow_build import CLANG, GCC, HEAD, LD, LLD, MAIN, bounds, built, stated
from fptools.files.elf import Program
from fptools.flow.records import Marks

LEVELS = ("-O0", "-Og", "-O1", "-O2", "-O3", "-Os")


def f_of(body: str) -> str:
    return f"{HEAD}APART void f(u32 n) {{ {body} }}\n{MAIN}"


COUNTED_BY_DATA = "FP_LOOP(i, 7); for (u32 i = 0; i < (n & 7); i++) { FP_ROUND(i); count += a[i]; }"


@pytest.mark.parametrize(
    ("level", "compiler", "is_laid"),
    [
        *((level, GCC, True) for level in LEVELS),
        ("-O2", CLANG, True),
        ("-Os", CLANG, False),
        ("-Os", GCC, False),
    ],
)
def test_a_loop_by_data(tmp_path: Path, level: str, compiler: list[str], is_laid: bool) -> None:
    elf = built(tmp_path, [f_of(COUNTED_BY_DATA)], [level], compiler, is_laid=is_laid)
    found = bounds(elf)
    # A compiler may take one round, or all seven, out of the loop.
    assert all(it is not None and it <= 7 for it in found)
    assert level not in ("-O0", "-Og", "-Os") or found in ([6], [7])


def test_what_comes_before_the_first_loop_mark_counts(tmp_path: Path) -> None:
    """A FP_LOOP that some ways jump over: its FP_ROUND is passed n times at most before it, and n
    times behind it."""
    body = "if (n & 64) goto in; FP_LOOP(i, 7); in: for (u32 i = 0; i < (n & 7); i++) { FP_ROUND(i); count += a[i]; }"
    assert bounds(built(tmp_path, [f_of(body)])) in ([6], [7])


INNER = "FP_LOOP(j, 3); for (u32 j = 0; j < (n >> i & 3); j++) { FP_ROUND(j); count++; }"
NESTED = f"FP_LOOP(i, 7); for (u32 i = 0; i < (n & 7); i++) {{ FP_ROUND(i); {INNER} }}"


MARKED = {
    # A triangle: the inner loop makes 1 to 7 rounds.
    "triangle": "FP_LOOP(i, 7); for (u32 i = 0; i < 7; i++) { FP_ROUND(i); "
    "FP_LOOP(j, 7); for (u32 j = 0; j <= i; j++) { FP_ROUND(j); count += a[j]; } }",
    "bubble": "FP_LOOP(i, 7); for (int i = 7; i > 0; i--) { FP_ROUND(i); FP_LOOP(j, 7); "
    "for (int j = 0; j < i; j++) { FP_ROUND(j); if (a[j] > a[j + 1]) a[j] = a[j + 1]; } }",
    "byte": "FP_LOOP(i, 7); for (uint8_t i = 0; i < 7; i++) { FP_ROUND(i); count += a[i]; }",
    "wraps": "FP_LOOP(i, 7); for (uint8_t i = 249; i; i++) { FP_ROUND(i); count += a[i & 63]; }",
    "signed": "FP_LOOP(i, 7); int8_t i = 121; do { FP_ROUND(i); count += a[i & 63]; i++; } while (i > 0);",
    "half": "FP_LOOP(i, 7); for (uint16_t i = 65529; i; i++) { FP_ROUND(i); count += a[i & 63]; }",
}


@pytest.mark.parametrize("compiler", [GCC, CLANG], ids=["gcc", "clang"])
@pytest.mark.parametrize("level", ["-Og", "-O2", "-O3"])
def test_marks_are_enough_for_triangles_and_for_counters_that_wrap(
    tmp_path: Path, compiler: list[str], level: str
) -> None:
    """Loops that make seven rounds at most, and one round at least."""
    functions = "".join(f"APART void {name}_(u32 n) {{ {it} }}\n" for name, it in MARKED.items())
    calls = " ".join(f"{name}_(FP_PORT);" for name in MARKED)
    text = f"{HEAD}{functions}void main0(void) {{ for (;;) {{ {calls} }} }}\n"
    elf = built(tmp_path, [text], [level, "-fno-strict-overflow"], compiler)
    for name in MARKED:
        found = bounds(elf, f"{name}_")
        assert all(it is not None and it <= 7 for it in found), (name, found)
        # A compiler may unroll a loop, and make one of two.
        assert level != "-Og" or compiler is CLANG or found and {*found} <= {6, 7}


def test_nested_loops_have_their_own_bounds(tmp_path: Path) -> None:
    found = bounds(built(tmp_path, [f_of(NESTED)], ["-Os"]))
    assert sorted(it for it in found if it is not None) in ([2, 6], [3, 7], [2, 7], [3, 6])
    assert len(found) == 2


def test_a_round_that_is_only_sometimes_passed_bounds_nothing(tmp_path: Path) -> None:
    body = "FP_LOOP(i, 4); for (u32 i = 0; i < (n & 7); i++) { if (a[i] & 1) FP_ROUND(i); count += a[i]; }"
    (loop,) = stated(built(tmp_path, [f_of(body)], ["-Os"]))["f"]
    assert loop.bound is None
    assert "no FP_ROUND(i) is on the way t0.c:6" in loop.doubt


def test_both_ways_of_a_branch_may_have_the_round(tmp_path: Path) -> None:
    body = (
        "FP_LOOP(i, 7); for (u32 i = 0; i < (n & 7); i++) "
        "{ if (a[i] & 1) { FP_ROUND(i); count += a[i]; } else { count -= n; FP_ROUND(i); } }"
    )
    assert bounds(built(tmp_path, [f_of(body)], ["-Os"])) in ([6], [7])


def test_two_passes_in_each_round_halve_the_bound(tmp_path: Path) -> None:
    body = "FP_LOOP(i, 15); for (u32 i = 0; i < (n & 7); i++) { FP_ROUND(i); count += a[i]; FP_ROUND(i); } "
    # 15 passes are 7 rounds and a half: the number is rounded down.
    assert bounds(built(tmp_path, [f_of(body)], ["-Os"])) in ([6], [7])


def test_two_claims_bound_one_loop_together(tmp_path: Path) -> None:
    """Words and characters of a text of 16: each round of the outer loop takes one, so they are 16
    together."""
    body = (
        "u32 at = 0; FP_LOOP(chars, 16); FP_LOOP(words, 16); while (at < 16) { FP_ROUND(words); "
        "while (at < 16 && a[at] & 1) { FP_ROUND(chars); at++; } a[at] ^= n; at++; }"
    )
    found = bounds(built(tmp_path, [f_of(body)], ["-Os"]))
    # A compiler may make one loop of both.
    assert sorted(it for it in found if it is not None) in ([15, 16], [16, 16], [32])


def test_a_loop_mark_inside_of_the_loop_bounds_nothing(tmp_path: Path) -> None:
    body = "for (u32 i = 0; i < (n & 7); i++) { FP_LOOP(i, 1); FP_ROUND(i); count += a[i]; }"
    (loop,) = stated(built(tmp_path, [f_of(body)], ["-Os"]))["f"]
    assert loop.bound is None
    assert "a round may pass FP_LOOP(i) again, at t0.c:6" in loop.doubt


@pytest.mark.parametrize("level", ["-Og", "-O2"])
def test_a_load_may_end_a_round_that_passes_no_mark(tmp_path: Path, level: str) -> None:
    """The load before FP_ROUND may trap in a round that passes none: then the loop has gone back n
    times."""
    text = (
        HEAD
        + "APART void f(u32 *p) { FP_LOOP(i, 8); do { count = *p; FP_ROUND(i); p += 4; } while (FP_PORT); }\n"
    )
    (bound,) = bounds(built(tmp_path, [text + MAIN.replace("FP_PORT", "a")], [level]))
    assert bound == 8
    text = text.replace("count = *p; FP_ROUND(i);", "FP_ROUND(i); count = *p;")
    (bound,) = bounds(built(tmp_path / "first", [text + MAIN.replace("FP_PORT", "a")], [level]))
    assert bound == 7


def test_a_called_function_has_claims_of_its_own(tmp_path: Path) -> None:
    text = (
        HEAD
        + "APART void g(u32 n) { FP_LOOP(j, 7); for (u32 j = 0; j < (n & 7); j++) { FP_ROUND(j); count += a[j]; } }\n"
        "APART void f(u32 n) { FP_LOOP(i, 5); for (u32 i = 0; i < (n & 7); i++) { FP_ROUND(i); g(n >> 3); } }\n"
        + MAIN
    )
    found = stated(built(tmp_path, [text], ["-Os"]))
    assert [it.bound for it in found["f"]] in ([4], [5])
    assert [it.bound for it in found["g"]] in ([6], [7])


@pytest.mark.parametrize("level", ["-Og", "-O2"])
def test_a_call_that_passes_the_loop_mark_again(tmp_path: Path, level: str) -> None:
    """A function that calls itself in the loop: the claim is of the run, and isn't used."""
    body = "n &= 63; FP_LOOP(i, 2); for (u32 i = 0; i < FP_PORT; i++) { FP_ROUND(i); count += i; if (n & 31) f(n - 1); }"
    text = HEAD + f"APART void f(u32 n) {{ {body} }}\n" + MAIN
    found = stated(built(tmp_path, [text], [level, "-fno-inline"]))["f"]
    assert found and all(it.bound is None for it in found)
    assert all("a call of code that isn't looked at" in it.doubt for it in found)


def test_a_claim_of_a_header_in_two_units(tmp_path: Path) -> None:
    (tmp_path / "own.h").write_text(
        "static inline u32 each(u32 n) { u32 s = 0; FP_LOOP(i, MOST); "
        "for (u32 i = 0; i < n % (MOST + 1); i++) { FP_ROUND(i); s += a[i]; } return s; }\n"
    )
    one = HEAD + '#define MOST 3\n#include "own.h"\nu32 g(u32 n) { return each(n); }\n'
    other = (
        HEAD
        + '#define MOST 12\n#include "own.h"\nu32 g(u32); APART void f(u32 n) { count += each(n) + g(n); }\n'
        + MAIN
    )
    found = stated(built(tmp_path, [one, other], ["-Os"]))
    assert [it.bound for it in found["g"]] in ([2], [3])
    assert [it.bound for it in found["f"]] in ([11], [12])


@pytest.mark.parametrize("paths", [("own.h", "own.h"), ("own.h", "in/../own.h")])
@pytest.mark.parametrize("is_laid", [True, False])
def test_two_paths_to_one_header(tmp_path: Path, paths: tuple[str, str], is_laid: bool) -> None:
    """Each round of the loop in one unit passes FP_LOOP of the same statement in the other."""
    (tmp_path / "in").mkdir()
    (tmp_path / "own.h").write_text(
        "u32 depth(u32);\nstatic inline u32 each(u32 n, u32 more) { u32 s = 0; FP_LOOP(i, 2); "
        "for (u32 i = 0; i < n; i++) { FP_ROUND(i); s += a[i]; if (more) s += depth(more - 1); } "
        "return s; }\n"
    )
    one, other = (HEAD + f'#include "{it}"\n' for it in paths)
    one += "void main0(void) { count = each(12, 1); }\n"
    other += "u32 depth(u32 more) { return each(1, more); }\n"
    for level in ("-O2", "-Os"):
        found = stated(built(tmp_path, [one, other], [level], is_laid=is_laid))["main0"]
        assert found and all(it.bound is None for it in found)
        assert all("may pass the FP_LOOP of " in it.doubt for it in found)


@pytest.mark.parametrize("linker", [[*LLD, "--icf=all"], LLD, LD], ids=" ".join)
def test_functions_that_a_linker_folds(tmp_path: Path, linker: list[str]) -> None:
    """Two local functions of one name in two units, of the same code, with claims of 4 and of
    30."""
    same = (
        "static __attribute__((noinline)) u32 same(u32 n) { u32 s = 0; FP_LOOP(k, %d); "
        "for (u32 i = 0; i < n; i++) { FP_ROUND(k); s += i ^ n; FP_PORT = s; } return s; }\n"
    )
    one = (
        HEAD
        + same % 4
        + "u32 g(u32); APART void f(u32 n) { count = same(n %% 5) + g(n & 31); }\n".replace(
            "%%", "%"
        )
        + MAIN
    )
    other = HEAD + same % 30 + "u32 g(u32 n) { return same(n); }\n"
    elf = built(tmp_path, [one, other], ["-O2", "-ffunction-sections"], CLANG, linker, is_laid=True)
    (loops,) = (loops for name, loops in stated(elf).items() if name == "same")
    if "--icf=all" in linker:
        assert [it.bound for it in loops] == [None]
        assert "same shares its code with another function: link without --icf" in loops[0].doubt
    else:
        assert all(it.bound is not None for it in loops)


def test_a_stripped_executable_has_no_claims(tmp_path: Path) -> None:
    elf = built(tmp_path, [f_of(COUNTED_BY_DATA)], ["-Os"])
    for option, why in (
        ("--strip-symbol=f", "is in no function with a size: strip removes its symbol"),
        ("--discard-all", "has neither local symbols nor all lines"),
        ("--strip-all", "has neither local symbols nor all lines"),
    ):
        out = tmp_path / f"{option.strip('-')}.elf"
        subprocess.run(["riscv64-unknown-elf-objcopy", option, elf, out], check=True)
        marks = Marks.of(Program(out))
        assert why in f"{marks.fault} {marks.unused}"


def test_two_units_of_one_name_have_no_claims(tmp_path: Path) -> None:
    text = f_of(COUNTED_BY_DATA)
    other = (
        f"{HEAD}u32 g(u32 n) {{ u32 s = 0; {COUNTED_BY_DATA.replace('count', 's')} return s; }}\n"
    )
    elf = built(tmp_path, [text, other], ["-Os"], is_laid=False)
    assert None not in bounds(elf)
    data = elf.read_bytes()
    elf.write_bytes(data.replace(b"\x002:", b"\x001:").replace(b"t1.c", b"t0.c"))
    (loop,) = stated(elf)["f"]
    assert loop.bound is None
    assert "2 units are named" in loop.doubt and "-DFP_FLOW_DIRECT" in loop.doubt
