"""`fp_budget --period` on compiled programs: waits in functions, copies that the compiler makes,
and runs."""
from __future__ import annotations

import os
import re
import shutil
import subprocess
from pathlib import Path

import pytest
from fptools.testing.common import TOOLS, TOP, Tool

SETUP = """period = 10
image = "{folder}/own.fpx"
slots = ["T0", "S", "T0", "S", "S", "D", "D", "D"]
i_regions = ["T0", "T1", "T2", "T3", "T4", "T5", "T6", "readonly"]
d_regions = ["T0", "T1", "T2", "T3", "T4", "T5", "T6", "shared"]
[[thread]]
id = 0
mode = "hard"
entry = 0
confined = true
inputs = [[0, 7], [6000, 2], [9000, 31], [20000, 1], [30000, 0], [40000, 3]]
"""
HEAD = """#include "flexpret.h"
#define P 20000
static uint32_t table[16];
__attribute__((noinline)) static uint32_t work(uint32_t n)
{
    FP_LOOP(sum, 12);
    for (int i = 0; i < 12; i++) {
        FP_ROUND(sum);
        n = n * 3 + table[i];
    }
    FP_LOOP(move, 15);
    for (int i = 15; i > 0; i--) {
        FP_ROUND(move);
        table[i] = table[i - 1] + n;
    }
    return n;
}
static uint64_t next;
__attribute__((noinline)) static void tick(void) { next += P; fp_wait_until(next); }
__attribute__((noinline)) static void hold(uint64_t moment) { fp_wait_until(moment); }
"""
BEGIN = "void main0(void)\n{\n    next = fp_get_time();\n"


class Built:
    """A program in C with its setup."""

    def __init__(
        self, tool: Tool, folder: Path, source: str, level: str = "-O2", more: str = ""
    ) -> None:
        self.tool, self.folder = tool, folder
        if shutil.which("riscv64-unknown-elf-gcc") is None or shutil.which("make") is None:
            pytest.skip("no compiler: gcc-riscv64-unknown-elf and make")
        for name in ("Makefile", "flexpret.h", "flexpret.ld"):
            shutil.copy(TOP / "examples/c" / name, folder)
        start = (TOP / "examples/c/start.s").read_text()
        (folder / "start.s").write_text(re.sub(r"^ *start_thread 1$", "", start, flags=re.M))
        (folder / "t0_main.c").write_text(HEAD + source)
        objects = "start.o t0_main.o"
        if more:
            (folder / "t0_more.s").write_text(more)
            objects += " t0_more.o"
        words = [
            "make",
            "-s",
            "-C",
            str(folder),
            "PROGRAM=own",
            f"OBJECTS={objects}",
            f"OPTIONS={level} -g",
        ]
        made = subprocess.run(
            [*words, f"FP_LAYOUT={TOOLS}/fp_layout"], capture_output=True, text=True, check=False
        )
        assert made.returncode == 0, made.stderr
        image = subprocess.run(
            [os.environ["FLEXPRET"], "elf", folder / "own.elf"], capture_output=True, check=True
        )
        (folder / "own.fpx").write_bytes(image.stdout)
        (folder / "own.toml").write_text(SETUP.format(folder=folder))

    def period(self, *words: object) -> tuple[int, str]:
        more = words or ("--ns", 20000, "--runs", 300000)
        ran = self.tool(
            "fp_budget",
            self.folder / "own.elf",
            "--setup",
            self.folder / "own.toml",
            "--thread",
            0,
            "--period",
            *more,
        )
        return ran.returncode, ran.stdout + ran.stderr


@pytest.fixture(autouse=True)
def program(flexpret: str, monkeypatch: pytest.MonkeyPatch) -> None:
    monkeypatch.setenv("FLEXPRET", flexpret)


@pytest.mark.parametrize(
    "body",
    [
        "for (;;) { FP_PORT = work(FP_PORT); tick(); }",
        "for (;;) { FP_PORT = work(FP_PORT); next += P; hold(next); }",
        # gcc doubles the call of tick, and so the wait.
        "while (1) {\n tick();\n uint32_t x = FP_PORT;\n if (x & 1) FP_PORT = work(x); else if (x & 2) FP_PORT = work(work(x));\n }",
    ],
)
def test_a_wait_in_a_function(tool: Tool, tmp_path: Path, body: str) -> None:
    """The distance is read off the code, though the moment is kept in memory."""
    built = Built(tool, tmp_path, f"{BEGIN}{body}\n}}\n")
    status, text = built.period()
    assert status == 0 and "cycles" in text and "; assumes no trap; the longest of" in text, text
    assert "no wait is late" in text
    status, text = built.period("--ns", 19000)
    assert status == 2 and "the moment is 20000 ns behind the one before, and not 19000 ns" in text


NESTED = "for (int k = 0; k < 5; k++) { next += P; fp_wait_until(next); table[FP_PORT & 15] += k; }"
NESTED += " next += P; fp_wait_until(next); FP_PORT = work(FP_PORT);"
TWO_LOOPS = "do { tick(); table[FP_PORT & 15]++; } while (FP_PORT & 1);\n"
TWO_LOOPS += "do { tick(); FP_PORT = work(4); } while (FP_PORT & 2);"
BY_HAND = (
    "next += P; fp_wait_until(next); FP_PORT = 1; next += P; fp_wait_until(next); FP_PORT = 0;"
)


@pytest.mark.parametrize("level", ["-O2", "-Os"])
@pytest.mark.parametrize("moment", ["uint64_t next = fp_get_time();", "next = 100000;"])
@pytest.mark.parametrize("body", [NESTED, TWO_LOOPS, BY_HAND], ids=["nested", "two", "by hand"])
def test_several_waits_in_a_round(
    tool: Tool, tmp_path: Path, body: str, moment: str, level: str
) -> None:
    """Each two moments are P apart. The compiler adds all of an inner loop's at once."""
    if "tick" in body:
        moment = moment.replace("uint64_t ", "")
    source = f"void main0(void)\n{{\n    {moment}\n    for (;;) {{ {body} }}\n}}\n"
    status, text = Built(tool, tmp_path, source, level).period()
    assert status == 0 and "; assumes no trap; the longest of" in text, text
    assert "no wait is late" in text


def test_a_run_of_two_loops_that_wait_in_one_function(tool: Tool, tmp_path: Path) -> None:
    """Each loop's periods are told apart by the calls that lead to the wait."""
    body = "for (int k = 0; k < 9; k++) { tick(); }\n work(work(work(1)));\n"
    body += "for (;;) { tick(); FP_PORT = work(FP_PORT); }"
    status, text = Built(tool, tmp_path, f"{BEGIN}{body}\n}}\n", "-O1").period()
    assert status == 0 and "the longest of 8 periods takes" in text, text


def test_copies_of_a_wait_that_the_compiler_makes(tool: Tool, tmp_path: Path) -> None:
    """They are one behind the other, of one source line."""
    loop = "for (int k = 0; k < 3; k++) { if (k == 1) FP_PORT = work(7);\n next += P;\n fp_wait_until(next); }"
    begin = "void main0(void)\n{\n uint64_t next = fp_get_time();\n for (;;) {\n"
    body = begin + "#pragma GCC unroll 3\n" + loop + " }\n}\n"
    status, text = Built(tool, tmp_path, body).period()
    assert status == 0 and "; assumes no trap; the longest of" in text, text


@pytest.mark.parametrize("level", ["-O2", "-Og"])
def test_one_wait_called_twice_with_one_moment_that_is_not_known(
    tool: Tool, tmp_path: Path, level: str
) -> None:
    """What isn't known of one call's moment is assumed, though that of the other is known."""
    swap = "__attribute__((noinline)) static void swap(uint64_t *x, uint64_t *y)\n"
    swap += "{\n    uint64_t kept = *x;\n    *x = *y;\n    *y = kept;\n}\n"
    chosen = "__attribute__((noinline)) static uint64_t chosen(uint64_t x)\n"
    chosen += (
        "{\n    uint64_t y[2] = {x, x};\n    y[FP_PORT & 1] += P;\n    return y[FP_PORT & 1];\n}\n"
    )
    round_ = "next += P; hold(next); swap(&next, &other); next = chosen(next); hold(next);"
    body = f"static uint64_t other;\n{swap}{chosen}{BEGIN}    other = next;\n    for (;;) {{ {round_} }}\n}}\n"
    status, text = Built(tool, tmp_path, body, level).period("--ns", 20000)
    assert status == 2 or "moments 20000 ns apart" in text, text


@pytest.mark.parametrize(
    ("body", "why"),
    [
        ("for (;;) { tick();\n next += work(1);\n tick(); }", "another wait, behind that at"),
        (
            "for (;;) { tick(); fp_delay_until(next + 100); }",
            "a DU on the path takes as long as its moment says",
        ),
        (
            "for (;;) { next += P; if (FP_PORT & 1) fp_wait_until(next);\n else fp_wait_until(next + 40); }",
            "ns behind the one before",
        ),
        (
            "void (*call)(void) = FP_PORT ? tick : 0; for (;;) { tick(); call(); }",
            "a jump to an address that isn't known",
        ),
    ],
)
def test_unknown(tool: Tool, tmp_path: Path, body: str, why: str) -> None:
    status, text = Built(tool, tmp_path, f"{BEGIN}{body}\n}}\n").period()
    assert status == 2 and why in text, text


def test_a_fault_that_resumes_in_the_loop(tool: Tool, tmp_path: Path) -> None:
    """The handler recovers and jumps to the loop's head: the period with it is longer than the
    bound."""
    source = """void on_late(void);
__attribute__((noinline)) void recover(void) { table[0] = work(table[1]); }
void main0(void)
{
    fp_write_csr(mtvec, on_late);
    uint64_t next = fp_get_time();
    for (;;) {
        FP_MARK(resume);
        next += P;
        fp_wait_until(next);
        uint32_t x = FP_PORT;
        if (x & 16) x += *(volatile uint32_t *)(uintptr_t)(0x40000000 + x);
        FP_PORT = work(x & 3);
    }
}
"""
    more = '.section .text.on_late,"ax"\n.globl on_late\n.type on_late, @function\non_late: call recover\nj resume\n.size on_late, .-on_late\n'
    status, text = Built(tool, tmp_path, source, more=more).period()
    assert status == 2 and "the trap handler at" in text and "leads here" in text, text


BY_HAND_CARRY = "fp_wait_until(((uint64_t)high << 32) | low); FP_PORT = work(FP_PORT);"


@pytest.mark.parametrize(
    "carry",
    [
        # gcc compares with a constant, and turns the result round.
        "low += P; if (low < P) high++;",
        "if (low > 0xffffffffu - P) high++; low += P;",
        "low += P; high = high + 1 - (low >= P);",
    ],
    ids=["less", "before", "turned round"],
)
def test_a_carry_by_a_comparison_with_a_number(tool: Tool, tmp_path: Path, carry: str) -> None:
    begin = "void main0(void)\n{\n    uint32_t low = 100000, high = 0;\n"
    source = f"{begin}for (;;) {{ {BY_HAND_CARRY}\n {carry} }}\n}}\n"
    status, text = Built(tool, tmp_path, source).period()
    assert status == 0 and "; assumes no trap; the longest of" in text, text


@pytest.mark.parametrize(
    "carry",
    [
        "low += P; if (low < P + 1) high++;",
        "if (low >= 0xffffffffu - P) high++; low += P;",
        "low += P; high = high + 1 + (low >= P);",
        "low += P; high = high + (low >= P);",
    ],
    ids=["one more", "one before", "added", "without one"],
)
def test_a_wrong_carry_by_a_comparison(tool: Tool, tmp_path: Path, carry: str) -> None:
    begin = "void main0(void)\n{\n    uint32_t low = 100000, high = 0;\n"
    source = f"{begin}for (;;) {{ {BY_HAND_CARRY}\n {carry} }}\n}}\n"
    status, text = Built(tool, tmp_path, source).period("--ns", 20000)
    assert status == 2 or "moments 20000 ns apart" in text, text


@pytest.mark.parametrize(
    "source",
    [
        "static uint64_t at = 100000;",
        "static volatile uint64_t at = 100000;",
        "static struct { uint32_t n; uint64_t at; } own = { 3, 100000 };\n#define at own.at",
        "static uint64_t own[2] = { 100000, 5 };\n#define at own[0]",
    ],
    ids=["static", "volatile", "struct", "array"],
)
def test_a_first_moment_that_memory_has(tool: Tool, tmp_path: Path, source: str) -> None:
    """Both are read off the code: that the first wait is in time, and the distance."""
    body = "void main0(void)\n{\n    for (;;) { fp_wait_until(at); at += P; FP_PORT = work(FP_PORT); }\n}\n"
    status, text = Built(tool, tmp_path, f"{source}\n{body}").period()
    assert status == 0 and "; assumes no trap; the longest of" in text, text
    built = Built(tool, tmp_path, f"{source}\n{body}".replace("100000", "30"))
    status, text = built.period("--ns", 20000)
    assert status == 2 and "the first wait may be late" in text, text


def test_a_store_by_a_pointer_to_the_moment(tool: Tool, tmp_path: Path) -> None:
    """The code doesn't show the distance where a store may change the moment."""
    body = "for (;;) { ((uint32_t *)&next)[FP_PORT & 1] += 3; tick(); }"
    status, text = Built(tool, tmp_path, f"{BEGIN}{body}\n}}\n").period("--ns", 20000)
    assert status == 0 and "moments 20000 ns apart" in text, text


def test_a_loop_that_stores_over_the_moment(tool: Tool, tmp_path: Path) -> None:
    """The words that a loop stores to are known by its rounds: here the moment is among them."""
    source = """typedef uint32_t __attribute__((may_alias)) any_word;
static struct { uint32_t words[4]; uint64_t next; } own;
__attribute__((noinline)) static void changes(void)
{
    volatile any_word *word = (volatile any_word *)own.words;
    FP_LOOP(word, ROUNDS);
    for (int i = 0; i < ROUNDS; i++) {
        FP_ROUND(word);
        word[i] += 4;
    }
}
void main0(void)
{
    own.next = fp_get_time();
    for (;;) { changes(); own.next += P; fp_wait_until(own.next); }
}
"""
    for rounds, is_read in ((4, True), (5, False)):
        built = Built(tool, tmp_path, source.replace("ROUNDS", str(rounds)))
        status, text = built.period("--ns", 20000)
        assert status == 0 and ("moments 20000 ns apart" in text) != is_read, text


def test_a_period_by_its_function(tool: Tool, tmp_path: Path) -> None:
    built = Built(tool, tmp_path, f"{BEGIN}for (;;) {{ FP_PORT = work(FP_PORT); tick(); }}\n}}\n")
    status, text = built.period("--function", "main0")
    assert (
        status == 0
        and text.startswith("bound    T0 period of main0: ")
        and "the moments are 20000 ns apart" in text
    )
    status, text = built.period("--function", "work")
    assert status == 2 and "no loop of work waits" in text


COPY = """static uint8_t one[256], other[256];
__attribute__((noinline, noipa)) void *memcpy(void *to, const void *from, unsigned long n)
{
    FP_LOOP(byte, 128);
    for (unsigned long i = 0; i < n; i++) {
        FP_ROUND(byte);
        ((uint8_t *)to)[i] = ((const uint8_t *)from)[i];
        __asm__ volatile("" ::: "memory");
    }
    return to;
}
"""
INSIDE = "__attribute__((noinline, noipa)) static void inside(void) { memcpy(one, other, SIZE); }\n"


@pytest.mark.parametrize(
    "body",
    [
        "for (;;) { memcpy(one, other, SIZE); tick(); }",
        "for (;;) { memcpy(one, other, 8); inside(); tick(); }",
        "memcpy(one, other, SIZE); for (;;) { memcpy(one, other, FP_PORT & 7); tick(); }",
    ],
    ids=["in the loop", "by a function", "before the loop"],
)
def test_a_call_that_passes_more_than_the_claim_says(tool: Tool, tmp_path: Path, body: str) -> None:
    """Wherever the thread calls it: the claim is of its whole run."""
    status, text = Built(
        tool, tmp_path, (COPY + INSIDE + f"{BEGIN}{body}\n}}\n").replace("SIZE", "160")
    ).period("--ns", 20000)
    assert status == 2 and "memcpy" in text and "by the call at 0x" in text, text
    assert "the code counts 16" in text and "the marks state 12" in text
    assert "correct the n of FP_LOOP" in text


def test_a_call_that_passes_what_the_claim_says(tool: Tool, tmp_path: Path) -> None:
    body = "for (;;) { memcpy(one, other, 128); inside(); tick(); }"
    source = (COPY + INSIDE + f"{BEGIN}{body}\n}}\n").replace("SIZE", "100")
    status, text = Built(tool, tmp_path, source).period("--ns", 40000)
    assert status == 0 and "by the call at 0x" not in text, text
    assert "goes back 127 times" in text
