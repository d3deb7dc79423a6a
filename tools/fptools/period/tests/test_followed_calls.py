"""Moments that called functions read, return or change: as the code shows them, and near cases in
which it doesn't."""
from __future__ import annotations

from pathlib import Path

import pytest
from fptools.period.tests.test_periods_c import Built, program
from fptools.testing.common import Tool

__all__ = ["program"]
APART = "__attribute__((noinline)) static "
LOOP = "uint64_t at = fp_get_time(); for (;;) { table[FP_PORT & 15]++; CHANGE fp_wait_until(at); }"


def source(function: str, change: str, loop: str = LOOP) -> str:
    return f"{APART}{function}\nvoid main0(void) {{ {loop.replace('CHANGE', change)} }}\n"


RETURNED = source("uint64_t later(uint64_t at) { return at + P; }", "at = later(at);")
OF_A_VARIABLE = source("uint64_t later(void) { next += P; return next; }", "at = later();").replace(
    "uint64_t at = fp_get_time();", "next = fp_get_time(); uint64_t at;"
)
BY_POINTER = source("void step(uint64_t *at) { *at += P; }", "step(&at);")
OF_ANOTHER_FUNCTION = f"{APART}uint64_t more(uint64_t at) {{ return at + P / 2; }}\n" + source(
    "uint64_t later(uint64_t at) { return more(more(at)); }", "at = later(at);"
)
ON_ONE_PATH = source(
    "uint64_t later(uint64_t at) { if (FP_PORT & 1) FP_PORT = 3; return at + P; }",
    "at = later(at);",
)
SHOWN = {
    "returned": RETURNED,
    "of a variable": OF_A_VARIABLE,
    "by a pointer": BY_POINTER,
    "of another function": OF_ANOTHER_FUNCTION,
    "a branch": ON_ONE_PATH,
    "only read": source("void nothing(void) { FP_PORT = 1; }", "nothing(); at += P;"),
}


@pytest.mark.parametrize("level", ["-O0", "-O1", "-O2", "-Os", "-O3"])
@pytest.mark.parametrize("name", SHOWN)
def test_straight_code_is_followed(tool: Tool, tmp_path: Path, name: str, level: str) -> None:
    """Nothing is assumed of the moments. At -O0 fp_get_time is a function too."""
    built = Built(tool, tmp_path, SHOWN[name], level)
    status, text = built.period()
    assert status == 0 and "; assumes no trap; the longest of" in text, text
    assert "no wait is late" in text
    status, text = built.period("--ns", 19000)
    assert status == 2 and "the moment is 20000 ns behind the one before, and not 19000 ns" in text


NOT_SHOWN = {
    "an input": source(
        "uint64_t later(uint64_t at) { return at + P + (FP_PORT & 1); }", "at = later(at);"
    ),
    "two distances": source(
        "uint64_t later(uint64_t at) { return at + (FP_PORT & 1 ? P : P + 8); }", "at = later(at);"
    ),
    "a loop": source(
        "uint64_t later(uint64_t at) { FP_LOOP(l, 8); for (uint32_t i = FP_PORT & 7; i; i--)"
        " { FP_ROUND(l); at += 8; } return at + P; }",
        "at = later(at);",
    ),
    "a store elsewhere": source(
        "void step(uint64_t *at, uint32_t *to) { *at += P; *to = 1; }",
        "step(&at, (uint32_t *)(FP_PORT & ~3u));",
    ),
    "another one on a path": source(
        "void step(uint64_t *at) { if (FP_PORT & 1) at = &next; *at += P; }", "step(&at);"
    ),
}


@pytest.mark.parametrize("level", ["-O0", "-O2", "-Os"])
@pytest.mark.parametrize("name", NOT_SHOWN)
def test_what_is_not_shown(tool: Tool, tmp_path: Path, name: str, level: str) -> None:
    built = Built(tool, tmp_path, NOT_SHOWN[name], level)
    status, text = built.period("--ns", 20000)
    assert status == 2 or "moments 20000 ns apart" in text, text
    assert (
        status == 2 or ": `next += P` on a local uint64_t, compiled from -Og on, shows it" in text
    )


@pytest.mark.parametrize("level", ["-O0", "-O2"])
@pytest.mark.parametrize("number", ["uint32_t k", "uint64_t k"])
def test_a_product(tool: Tool, tmp_path: Path, number: str, level: str) -> None:
    """A number of 32 bits goes round after 2^32 periods. gcc -O2 makes a sum of the other one."""
    loop = f"uint64_t at = fp_get_time(); for ({number} = 1;; k++) {{ FP_PORT = work(FP_PORT); CHANGE }}"
    body = source("void nothing(void) {}", "fp_wait_until(at + (uint64_t)k * P);", loop)
    status, text = Built(tool, tmp_path, body, level).period("--ns", 20000)
    is_shown = (number, level) == ("uint64_t k", "-O2")
    assert status == 0 and ("moments 20000 ns apart" in text) != is_shown, text


@pytest.mark.parametrize("level", ["-O1", "-O2", "-Os"])
def test_a_high_word_without_its_carry(tool: Tool, tmp_path: Path, level: str) -> None:
    """It is seen as what it is, and not assumed to be right."""
    function = (
        "uint64_t later(uint64_t at) { return (at >> 32 << 32) | (uint32_t)((uint32_t)at + P); }"
    )
    built = Built(tool, tmp_path, source(function, "at = later(at);"), level)
    status, text = built.period("--ns", 20000)
    assert status == 2 and "lacks the carry of the low word" in text, text


@pytest.mark.parametrize("level", ["-O0", "-O2"])
def test_a_reading_of_the_time_in_a_function(tool: Tool, tmp_path: Path, level: str) -> None:
    """Moments behind a reading drift, also where functions read the time."""
    function = "uint64_t now(void) { return fp_get_time(); }"
    built = Built(tool, tmp_path, source(function, "at = now() + 5000;"), level)
    status, text = built.period("--ns", 5000)
    assert "the moments drift: 5000 ns behind the reading of the time at" in text, text
    assert status == (1 if "OVER" in text else 0)


def test_a_function_that_may_not_come_back(tool: Tool, tmp_path: Path) -> None:
    """Straight code that changes x1 isn't followed."""
    text = f"uint64_t later(uint64_t at);\nvoid main0(void) {{ {LOOP.replace('CHANGE', 'at = later(at);')} }}\n"
    more = "\t.globl later\n\t.type later, @function\nlater:\tla ra, elsewhere\n\tret\nelsewhere: j elsewhere\n\t.size later, .-later\n"
    built = Built(tool, tmp_path, text, "-O2", more)
    status, said = built.period("--ns", 20000)
    assert status == 2 and "UNKNOWN" in said, said
