"""Counts by the numbers that calls pass, and claims that they contradict."""
from __future__ import annotations

from pathlib import Path

import pytest
from fptools.flow.tests.flow_build import HEAD, built, stated
from fptools.files.elf import Program
from fptools.flow.inference import Inference, StatedLoop
from fptools.code.section import walk_all

COPY = """typedef unsigned char byte;
static byte one[256], other[256];
__attribute__((noinline, noipa)) void *copy(byte *to, const byte *from, u32 n)
{
    %s
    for (u32 i = 0; i < n; i++) { %s to[i] = from[i]; __asm__ volatile(""); }
    return to;
}
void main0(void) { copy(one, other, 16); %s }
"""
MARKS = ("FP_LOOP(byte, 128);", "FP_ROUND(byte);")


def of_copy(folder: Path, text: str, level: str) -> StatedLoop:
    """What is known of the loop of `copy`, as main0 calls it."""
    program = Program(built(folder, [HEAD + text], [level]))
    (main0,) = (it for it in program.functions if it.name == "main0")
    parts = walk_all(program.words, main0.start, main0.end, program.functions, is_function=True)
    found = Inference(program).state(parts, {it.start for it in program.functions})
    (loop,) = (loop for part, loop in found if part is not parts[0])
    return loop


@pytest.mark.parametrize("level", ["-Og", "-O2", "-Os"])
def test_a_call_that_passes_more_than_the_claim_says(tmp_path: Path, level: str) -> None:
    text = COPY % (*MARKS, "copy(one + 16, other, 160);")
    loop = of_copy(tmp_path, text, level)
    assert loop.is_contradicted and loop.bound is None
    assert "by the call at 0x" in loop.doubt and "main0" in loop.doubt
    # Tested at its begin or at its end.
    counted = (
        "the code counts 161 rounds, the marks state 129",
        "the code counts 160 rounds, the marks state 128",
    )
    assert any(it in loop.doubt for it in counted)
    assert loop.advice == "correct the n of FP_LOOP"


@pytest.mark.parametrize("level", ["-Og", "-Os"])
def test_calls_that_keep_the_claim(tmp_path: Path, level: str) -> None:
    loop = of_copy(tmp_path, COPY % (*MARKS, "copy(one, other, 128);"), level)
    assert not loop.is_contradicted and loop.bound in (127, 128)
    loop = of_copy(tmp_path / "data", COPY % (*MARKS, "copy(one, other, FP_PORT & 63);"), level)
    assert not loop.is_contradicted and loop.bound in (127, 128)


@pytest.mark.parametrize("level", ["-Og", "-Os"])
def test_numbers_of_all_calls_bound_a_loop_without_marks(tmp_path: Path, level: str) -> None:
    loop = of_copy(tmp_path, COPY % ("", "", "copy(one, other, 160);"), level)
    assert loop.by_marks is None and loop.bound in (159, 160)
    loop = of_copy(tmp_path / "data", COPY % ("", "", "copy(one, other, FP_PORT);"), level)
    assert loop.bound is None


def test_a_claim_below_a_limit_that_another_exit_may_come_before(tmp_path: Path) -> None:
    """A text of 20 characters at most in a field of 100: the count is no contradiction, but is
    said."""
    text = """static volatile byte field[100];
void main0(void)
{
    u32 i = 0;
    FP_LOOP(at, 20);
    for (; i < 100; i++) { FP_ROUND(at); if (!field[i]) break; }
    FP_PORT = i;
}
""".replace(
        "byte", "uint8_t"
    )
    (loop,) = stated(built(tmp_path, [HEAD + text], ["-Os"]))["main0"]
    assert loop.bound in (19, 20) and not loop.is_contradicted
    assert "the code counts 10" in loop.source and "the marks state 2" in loop.source


@pytest.mark.parametrize("level", ["-Og", "-O2", "-Os"])
def test_the_outer_loop_of_an_insertion_sort(tmp_path: Path, level: str) -> None:
    """A compiler makes two copies of the outer loop's end, each with its step and its test."""
    text = """void main0(void)
{
    for (u32 i = 1; i < 16; i++) {
        u32 v = a[i], j = i;
        FP_LOOP(j, 15);
        while (j > 0 && a[j - 1] > v) { FP_ROUND(j); a[j] = a[j - 1]; j--; }
        a[j] = v;
    }
}
"""
    plain = HEAD.replace("static volatile u32 a[64];", "u32 a[64];")
    found = stated(built(tmp_path, [plain + text], [level]))["main0"]
    assert len(found) > 1 and all(it.bound is not None for it in found)
    outer = max(found, key=lambda it: len(it.loop.body))
    assert outer.by_code is not None and outer.by_code.is_exact and outer.bound in (14, 15)


MEDIAN = """uint32_t window[9];
void main0(void)
{
    u32 s[9];
    for (int i = 0; i < 9; i++) s[i] = window[i];
    AROUND
    for (int i = 1; i < 9; i++) {
        IN_IT
        u32 v = s[i], j = i;
        FP_LOOP(sink, 8);
        while (j > 0 && s[j - 1] > v) { FP_ROUND(sink); s[j] = s[j - 1]; j--; }
        s[j] = v;
    }
    FP_PORT = s[4];
}
"""


@pytest.mark.parametrize("level", ["-Og", "-O1", "-O2", "-Os", "-O3"])
def test_an_insertion_sort_of_a_copy(tmp_path: Path, level: str) -> None:
    """gcc -O3 unrolls the outer loop and makes others of both; gcc -O1 makes a round of it without its test, of j = 0.
    The message names what helps then."""
    plain = MEDIAN.replace("AROUND", "").replace("IN_IT", "")
    marked = MEDIAN.replace("AROUND", "FP_LOOP(i, 8);").replace("IN_IT", "FP_ROUND(i);")
    found = stated(built(tmp_path / "plain", [HEAD + plain], [level]))["main0"]
    why = [it.doubt for it in found if it.bound is None]
    assert bool(why) == (level in ("-O1", "-O3"))
    cure = "mark the loop around FP_LOOP(sink) too, with FP_LOOP(name, n) before it and FP_ROUND(name) in it, or compile by -O2"
    assert all(cure in it for it in why), why
    for text, by in ((marked, level), (plain, "-O2")):
        found = stated(built(tmp_path / by, [HEAD + text], [by]))["main0"]
        assert found and all(it.bound is not None and it.bound <= 9 for it in found), by


@pytest.mark.parametrize(
    ("left", "right", "test", "bound"),
    [
        (1, 1, "bne", 9),
        (1, 2, "bne", None),  # the ways add other numbers
        (1, 1, "nop; #", None),  # one way has no test
        (1, 1, "bltu", None),  # it leaves in the first round, and only some rounds pass it
    ],
)
def test_ways_of_a_round_with_steps_and_tests_of_their_own(
    tmp_path: Path, left: int, right: int, test: str, bound: int | None
) -> None:
    text = f"""	.text
	.globl main0
	.type main0, @function
main0:
	lui a3, 0x40000
	li a5, 0
	li a4, 10
head:
	lw a2, 0(a3)
	beqz a2, right
	addi a5, a5, {left}
	bne a5, a4, head
	j end
right:
	addi a5, a5, {right}
	beq a5, a4, end
	{test} a5, a4, head
	beqz x0, head
end:
	ret
	.size main0, .-main0
"""
    if test == "bltu":
        text = text.replace("beq a5, a4, end", "bltu a5, a4, end")
    if test.startswith("nop"):
        text = text.replace("beq a5, a4, end", "nop")
    (loop,) = stated(built(tmp_path, [text]))["main0"]
    assert loop.bound == bound
