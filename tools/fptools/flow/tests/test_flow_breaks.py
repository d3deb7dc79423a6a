"""Programs that the bounds by marks and by counts could be fooled by: a run goes back more often
than their claims and counts seem to say, by code that isn't seen as what it is. Each has no
bound."""
from __future__ import annotations

from pathlib import Path

import pytest
from fptools.testing.common import TOP
from fptools.flow.tests.flow_build import (
    CLANG,
    GCC,
    HEAD,
    LD,
    LINK,
    LLD,
    bounds,
    built,
    run,
    stated,
)
from fptools.files.elf import Program
from fptools.flow.inference import Inference, StatedLoop
from fptools.layout.loop_marks import with_records
from fptools.code.section import walk

CALLED = """NI_CALLEE
static volatile u32 v = 3, total = 40;
void main0(void)
{
    u32 s = 0, n = 0, t = total;
    goto in;
    {
    other: s += CALL(s);
        FP_LOOP(k, 2);
        goto mid;
    in: FP_ROUND(k);
        n++;
        if (!(n & 1)) goto other;
        s += v;
    mid: s ^= v;
        if (n < t) goto in;
    }
    FP_PORT = s;
}
"""


def main0_of(tmp_path: Path, text: str, *options: str, linker: list[str] = LD) -> list[StatedLoop]:
    return stated(built(tmp_path, [HEAD + text], [*options], GCC, linker))["main0"]


@pytest.mark.parametrize("level", ["-O1", "-O2"])
def test_an_endless_loop_without_anything_that_ends_it(tmp_path: Path, level: str) -> None:
    """No flow is possible, and 0 would be the largest of none."""
    text = """void main0(void)
{
    for (;;) {
        FP_LOOP(i, 4);
        for (int i = 0; i < 4; i++) { FP_ROUND(i); __asm__ volatile("addi t0,t0,1" ::: "t0"); }
    }
}
"""
    found = main0_of(tmp_path, text, level)
    outer = min(found, key=lambda it: it.loop.head)
    assert outer.bound is None and "nothing leaves the loop in t0.c:" in outer.doubt


def test_an_endless_loop_in_a_branch(tmp_path: Path) -> None:
    text = """static volatile u32 v = 1;
__attribute__((noinline)) u32 step(u32 x)
{
    if (x > 100) {
        u32 crc = x;
        for (;;) {
            FP_LOOP(bit, 8);
            for (int bit = 0; bit < 8; bit++) { FP_ROUND(bit); crc = crc & 1 ? crc >> 1 ^ 0xEDB88320u : crc >> 1; }
            __asm__ volatile("" : "+r"(crc));
        }
    }
    return x * 3;
}
void main0(void) { FP_PORT = step(v); FP_PORT = step(v + 100); }
"""
    assert bounds(built(tmp_path, [HEAD + text], ["-O2"]), "step") == [None, 7]


@pytest.mark.parametrize("asm", ["j 9f; nop; 9:", "j 9f\\n\\tnop\\n9:\\n\\tval = 3"])
def test_an_asm_that_jumps_to_its_end(tmp_path: Path, asm: str) -> None:
    """FP_LOOP(i) is passed in each round of the outer loop, by a jump of the asm to the label
    before the mark."""
    text = f"""static volatile u32 n = 40, most = 2;
void main0(void)
{{
    u32 x = 0, o = 0, c = n;
    do {{
        u32 i = 0, m = most;
        __asm__ volatile("{asm}" : "+r"(i), "+r"(m), "+r"(x));
        FP_LOOP(i, 2);
        do {{ FP_ROUND(i); i++; x += i; }} while (i < m);
        o++;
    }} while (o != c);
    FP_PORT = x;
}}
"""
    outer = max(main0_of(tmp_path, text, "-O2"), key=lambda it: len(it.loop.body))
    assert outer.bound is None


FAR = ("__attribute__((noinline)) u32 half(u32 x) { FP_PORT = x; return x >> 1; }", "half")
BY_POINTER = (
    "__attribute__((noinline)) static u32 two(u32 x) { return x + 2; } static u32 (*volatile p)(u32) = two;", "p"
)  # fmt: skip
COLD = ("__attribute__((cold, noinline)) u32 two(u32 x) { return x + 2; }", "two")


@pytest.mark.parametrize("level", ["-O1", "-Os"])
def test_a_mark_behind_a_call_by_pointer(tmp_path: Path, level: str) -> None:
    callee, call = BY_POINTER
    (loop,) = main0_of(tmp_path, CALLED.replace("NI_CALLEE", callee).replace("CALL", call), level)
    assert loop.bound is None
    assert "it isn't known what comes behind" in loop.doubt and "an indirect jump" in loop.doubt


def test_a_mark_behind_a_far_call(tmp_path: Path) -> None:
    """A call by AUIPC and JALR, in the order of the compiler."""
    callee, call = FAR
    text = HEAD + CALLED.replace("NI_CALLEE", callee).replace("CALL", call)
    elf = built(tmp_path, [text], ["-Os"], linker=[*LD, "--no-relax"], is_laid=False)
    found = stated(elf)["main0"]
    assert found and all(it.bound is None for it in found)


def test_a_mark_in_a_cold_part(tmp_path: Path) -> None:
    callee, call = COLD
    options = ("-Os", "-freorder-blocks-and-partition")
    text = CALLED.replace("NI_CALLEE", callee).replace("CALL", call)
    assert all(it.bound is None for it in main0_of(tmp_path, text, *options))
    cold = """	.section .text.unlikely
	.type part, @function
part:
	nop
.Lfp_flow1:
	.pushsection .fp_flow,"?o",@progbits,.Lfp_flow1
	.4byte .Lfp_flow1, 0, 0, 1, 2, 1, 1
	.asciz "k", "own.c", ""
	.popsection
	j back
	.size part, .-part
	.text
	.globl main0, back
	.type main0, @function
main0:
	li a4, 40
.Lin:
.Lfp_flow2:
	.pushsection .fp_flow,"?o",@progbits,.Lfp_flow2
	.4byte .Lfp_flow2, 1, 0, 1, 2, 1, 2
	.asciz "k", "own.c", ""
	.popsection
	addi a5, a5, 1
	beqz a5, part
back:
	bne a5, a4, .Lin
	ret
	.size main0, .-main0
"""
    (loop,) = stated(built(tmp_path / "asm", [cold]))["main0"]
    assert loop.bound is None and "it isn't known what comes behind" in loop.doubt


@pytest.mark.parametrize("level", ["-O1", "-O2"])
def test_a_counter_that_a_function_without_a_size_changes(tmp_path: Path, level: str) -> None:
    text = """__asm__(".section .text.as,\\"ax\\"\\n\\t.globl asm_half\\nasm_half:\\n\\tsrli a0,a0,1\\n\\tret\\n\\t.text");
u32 asm_half(u32);
static volatile u32 v = 3;
void main0(void)
{
    u32 s = 77, left = 30;
    for (int i = 0; i < 10; i++) {
        if (v & 1) { s += asm_half(s); if (left) { left--; i -= 1; } }
        else s ^= 3;
        v = i & 1 ? 3 : 2;
    }
    FP_PORT = s;
}
"""
    found = main0_of(tmp_path, text, level)
    assert found and all(it.bound is None for it in found)


def test_functions_that_save_registers_by_calls(tmp_path: Path) -> None:
    """A function that is entered by calls of a register of its own isn't gone through: its loops
    aren't known."""
    text = """static volatile u32 v = 3;
__attribute__((noinline)) u32 g(u32 x) { return v ^ x; }
__attribute__((noinline)) u32 f(u32 n, u32 m)
{
    u32 s = 0;
    FP_LOOP(i, 9);
    for (u32 i = 0; i < n; i++) { FP_ROUND(i); s += g(i * m) * g(s); }
    return s;
}
void main0(void) { FP_PORT = f(9, 3); FP_PORT = f(0, 1); }
"""
    elf = built(tmp_path, [HEAD + text], ["-Os", "-msave-restore"])
    assert all(it.bound is None for it in stated(elf)["f"])


COMES_BACK = """#include "flexpret.h"
        .globl main0
        .type main0, @function
main0:  mv s1, ra
        li a0, 40
        FP_LOOP(k, 2)
        li a5, 0
head:   jal ra, part
        FP_ROUND(k)
        addi a5, a5, 1
latch:  addi a0, a0, -1
        bnez a0, head
        mv ra, s1
        ret
        .size main0, .-main0
        .type part, @function
part:   li t0, 38
        bgtu a0, t0, 1f
        LEAVES
1:      ret
        .size part, .-part
"""


TOOLS = {"gcc": (GCC, LD), "clang": (CLANG, LLD)}


def all_of_assembler(folder: Path, text: str, way: str = "gcc", *options: str) -> list[StatedLoop]:
    """The loops of main0 in a file .S."""
    (compiler, linker), source, made = TOOLS[way], folder / "t.S", folder / "t.o"
    source.write_text(text)
    run(*compiler, *options, "-g", "-I", TOP / "examples/c", "-c", "-o", made, source)
    run(*linker, "-e", "main0", "-Ttext", "0", "-o", folder / "a.elf", made)
    return stated(folder / "a.elf")["main0"]


def of_assembler(folder: Path, text: str) -> StatedLoop:
    """The one loop of main0 in a file .S."""
    (loop,) = all_of_assembler(folder, text)
    return loop


@pytest.mark.parametrize(
    ("leaves", "why"),
    [
        ("j latch", "it isn't known what comes behind"),
        ("addi ra, ra, 4", "it isn't certain that"),
    ],
)
def test_a_call_that_comes_back_elsewhere(tmp_path: Path, leaves: str, why: str) -> None:
    """Rounds pass by FP_ROUND(k), though each path of main0 passes it."""
    loop = of_assembler(tmp_path, COMES_BACK.replace("LEAVES", leaves))
    assert loop.bound is None and why in loop.doubt


@pytest.mark.parametrize("is_deleted", [True, False])
def test_an_instruction_that_the_linker_deletes(tmp_path: Path, is_deleted: bool) -> None:
    """The mark is passed before the head, also where the instruction between them isn't there."""
    first = "lui a1, %hi(main0)" if is_deleted else "nop"
    text = f"""#include "flexpret.h"
        .globl main0
        .type main0, @function
main0:  li a0, 40
        FP_LOOP(k, 1)
        li t3, 3
        FP_ROUND(k)
        {first}
head:   addi a1, a1, 1
        addi a0, a0, -1
        mv t5, a0
        bnez t5, head
        ret
        .size main0, .-main0
"""
    loop = of_assembler(tmp_path, text)
    assert loop.bound is None
    assert "no FP_ROUND is in the loop" in loop.doubt


ALIGNED = """#include "flexpret.h"
        .globl main0
        .type main0, @function
main0:  li a2, 0x20000000
{more}        FP_LOOP(outer, 5)
outer:  lw a1, 0(a2)
        FP_LOOP(inner, 9)
        FP_ROUND(outer)
        .p2align 4
head:   FP_ROUND(inner)
        lw a3, 0(a2)
        bnez a3, head
        bnez a1, outer
        ret
        .size main0, .-main0
"""
ENTERED = """#include "flexpret.h"
        .globl main0
        .type main0, @function
main0:  li a2, 0x20000000
{more}        FP_LOOP(k, 3)
        .balign 16
outer:  lw a1, 0(a2)
        FP_ROUND(k)
        .align 4
head:   FP_ROUND(k)
        lw a3, 0(a2)
        bnez a3, head
        bnez a1, outer
        ret
        .size main0, .-main0
"""


@pytest.mark.parametrize("count", range(4))
@pytest.mark.parametrize(
    "way", [("gcc",), ("gcc", "-mno-relax"), ("clang", "-mno-relax")], ids=" ".join
)
def test_an_alignment_behind_a_mark(tmp_path: Path, way: tuple[str, ...], count: int) -> None:
    """Whether there is padding or none, a mark is passed where it is written."""
    more = "        addi t0, t0, 1\n" * count
    found = all_of_assembler(tmp_path, ALIGNED.format(more=more), *way)
    # The load before FP_ROUND(outer) may trap in a sixth round.
    assert [it.bound for it in found] == [5, 8]
    outer, inner = all_of_assembler(tmp_path, ENTERED.format(more=more), *way)
    assert (outer.bound, inner.bound) == (1, 2)


def test_a_visit_that_begins_in_a_later_round(tmp_path: Path) -> None:
    """Code before the section leads into its loop, with another number of the counter."""
    text = """	.text
	.globl main0
	.type main0, @function
main0:
	li a5, 0
	li a6, 4
	beqz a4, begin
	li a5, -100
	j middle
begin:
	addi a5, a5, 1
middle:
	nop
	beq a5, a6, end
	j begin
end:
	nop
	ret
	.size main0, .-main0
"""
    program = Program(built(tmp_path, [text]))
    begin, end = program.address("begin"), program.address("end")
    ((_, loop),) = Inference(program).state([walk(program.words, begin, end)])
    assert loop.bound is None


@pytest.mark.parametrize(
    ("before", "bound"),
    [
        ("jal part", 9),
        ("jal skips", None),  # it comes back a word later
        ("jal leaves", None),  # it goes on in main0 by itself
        ("la t1, begin\n\tjr t1", None),
        ("jal 1f\n1:\tnop", None),  # no function with a size
    ],
)
def test_a_number_that_is_jumped_over_before_a_section(
    tmp_path: Path, before: str, bound: int | None
) -> None:
    """The counter begins with 90, or with 0."""
    text = f"""	.text
	.globl main0
	.type main0, @function
main0:
	mv s1, ra
	li a5, 0
	{before}
	li a5, 90
begin:
	li t0, 100
head:
	addi a5, a5, 1
	bne a5, t0, head
end:
	mv ra, s1
	ret
	.size main0, .-main0
	.type part, @function
part:
	ret
	.size part, .-part
	.type skips, @function
skips:
	addi ra, ra, 4
	ret
	.size skips, .-skips
	.type leaves, @function
leaves:
	la t1, begin
	jr t1
	.size leaves, .-leaves
"""
    program = Program(built(tmp_path, [text]))
    begin, end = program.address("begin"), program.address("end")
    ((_, loop),) = Inference(program).state([walk(program.words, begin, end)])
    assert loop.bound == bound


def test_folded_functions_of_which_one_has_lines(tmp_path: Path) -> None:
    """The linker folds a static function without -g into another one, and drops its symbol."""
    text = """u32 NAME(u32 n)
{
    u32 s = 0;
    FP_LOOP(i, MOST);
    for (u32 i = 0; i < n; i++) { FP_ROUND(i); s += a[i]; }
    return s;
}
"""
    extern = HEAD.replace("static volatile u32 a[64];", "extern volatile u32 a[64];")
    one = extern + text.replace("NAME", "one").replace("MOST", "3")
    other = extern + "APART " + text.replace("NAME", "two").replace("MOST", "30")
    first = "volatile u32 a[64]; u32 one(u32), g(u32); void main0(void) { for (;;) one(g(30)); }\n"
    objects = []
    for name, unit, lines in (
        ("main", extern + first, "-g"), ("one", one, "-g"), ("other", other + CALLS_TWO, "-g0"),
    ):  # fmt: skip
        source, compiled = tmp_path / f"{name}.c", tmp_path / f"{name}.s"
        source.write_text(unit)
        options = ["-O2", "-ffreestanding", "-ffunction-sections", "-I", TOP / "examples/c"]
        run(*GCC, *options, lines, "-S", "-o", compiled, source)
        compiled.write_text(with_records(compiled.read_text()))
        objects.append(tmp_path / f"{name}.o")
        run(*GCC, "-c", "-o", objects[-1], compiled)
    (tmp_path / "link.ld").write_text(LINK)
    fold = ["ld.lld", "-n", "--icf=all", "--discard-all", "-e", "main0"]
    run(*fold, "-T", tmp_path / "link.ld", "-o", tmp_path / "a.elf", *objects)
    (loop,) = stated(tmp_path / "a.elf")["one"]
    assert loop.bound is None and "folded functions aren't known" in loop.doubt


CALLS_TWO = "u32 g(u32 n) { return two(n) + 1; }\n"
