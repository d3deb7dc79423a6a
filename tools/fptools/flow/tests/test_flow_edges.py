"""Bounds by marks in assembler: which edges pass a mark, and marks in called functions."""
from __future__ import annotations

from pathlib import Path

import pytest
from fptools.flow.tests.flow_build import built, stated
from fptools.flow.graph import ENTRY, Edge, LoopFlow
from fptools.flow.records import Claim, Kind, Mark, Pass
from fptools.flow.inference import StatedLoop

HEAD = """	.macro mark kind, order
.Lfp_flow\\@:
	.pushsection .fp_flow,"?o",@progbits,.Lfp_flow\\@
	.4byte .Lfp_flow\\@, \\kind, 0, 1, 8, 1, \\order
	.asciz "it", "own.c", ""
	.popsection
	.endm
	.globl main0
	.type main0, @function
main0:
"""
END = "	ret\n	.size main0, .-main0\n"
LOOP, ROUND, ONLY_FALL = 0, 1, 0x100


def mark(kind: int, order: int = 0) -> str:
    return f"\tmark {kind}, {order}\n"


def loop_of(folder: Path, *lines: str) -> StatedLoop:
    """The loop of a function that begins with FP_LOOP, whose n is 8."""
    text = HEAD + mark(LOOP) + "\taddi a0, a0, 1\n" + "".join(lines) + END
    (loop,) = stated(built(folder, [text]))["main0"]
    return loop


def test_each_edge_to_a_place_passes_its_mark(tmp_path: Path) -> None:
    loop = loop_of(
        tmp_path,
        "1:\tlw a1, 0(a0)\n\tbeqz a1, 2f\n\taddi a2, a2, 1\n2:\n",
        mark(ROUND),
        "\taddi a3, a3, 1\n\tbnez a3, 1b\n",
    )
    assert loop.bound == 8


def test_a_jump_behind_a_mark_does_not_pass_it(tmp_path: Path) -> None:
    """The address is the same, but only the word before it leads through the mark."""
    loop = loop_of(
        tmp_path,
        "1:\tlw a1, 0(a0)\n\tbeqz a1, 2f\n\taddi a2, a2, 1\n",
        mark(ROUND | ONLY_FALL),
        "2:\taddi a3, a3, 1\n\tbnez a3, 1b\n",
    )
    assert loop.bound is None
    assert "no FP_ROUND(it) is on the way 0x" in loop.doubt


def test_a_mark_before_a_head_is_not_passed_again(tmp_path: Path) -> None:
    """FP_LOOP at the address of the head, and the back edge leads behind it."""
    loop = loop_of(
        tmp_path,
        "\taddi a1, a1, 1\n",
        mark(LOOP | ONLY_FALL, 1),
        "1:\tlw a1, 0(a0)\n",
        mark(ROUND, 2),
        "\taddi a3, a3, 1\n\tbnez a3, 1b\n",
    )
    assert loop.bound == 8
    loop = loop_of(
        tmp_path / "each",
        "\taddi a1, a1, 1\n1:\n",
        mark(LOOP, 1),
        "\tlw a1, 0(a0)\n",
        mark(ROUND, 2),
        "\taddi a3, a3, 1\n\tbnez a3, 1b\n",
    )
    assert loop.bound is None and "a round may pass FP_LOOP(it) again" in loop.doubt


@pytest.mark.parametrize("kind", [ROUND, LOOP])
def test_a_mark_that_may_be_passed(tmp_path: Path, kind: int) -> None:
    """The word before it leads elsewhere, so it isn't known which edge was meant: a FP_ROUND
    doesn't count, and a FP_LOOP does."""
    loop = loop_of(
        tmp_path,
        "1:\tlw a1, 0(a0)\n",
        mark(ROUND, 1) if kind == LOOP else "",
        "\tbeqz a1, 2f\n\taddi a2, a2, 1\n\tj 3f\n",
        mark(kind | ONLY_FALL, 2),
        "2:\taddi a3, a3, 1\n3:\taddi a4, a4, 1\n\tbnez a3, 1b\n",
    )
    assert loop.bound is None


def test_a_way_that_only_may_pass_the_round_is_named(tmp_path: Path) -> None:
    """One way of each round surely passes FP_ROUND, and the other one maybe."""
    loop = loop_of(
        tmp_path,
        "1:\tlw a1, 0(a0)\n\tbeqz a1, 2f\n\taddi a4, a4, 1\n",
        mark(ROUND, 1),
        "\taddi a2, a2, 1\n\tj 3f\n",
        mark(ROUND | ONLY_FALL, 2),
        "2:\taddi a3, a3, 1\n3:\taddi a4, a4, 1\n\tbnez a3, 1b\n",
    )
    assert loop.bound is None and "no FP_ROUND(it) is on the way 0x" in loop.doubt


CALLEE = """	.globl inner
	.type inner, @function
inner:
	addi a5, a5, 1
%s	addi a6, a6, 1
	ret
	.size inner, .-inner
"""


@pytest.mark.parametrize(("callee", "bound"), [("", 8), (mark(ROUND, 7), 8), (mark(LOOP, 7), None)])
def test_the_marks_of_called_functions(tmp_path: Path, callee: str, bound: int | None) -> None:
    """FP_ROUND in a called function may be passed too, and FP_LOOP there makes the claim say
    nothing of the loop."""
    text = (
        HEAD
        + mark(LOOP)
        + "\tmv s0, ra\n\taddi a0, a0, 1\n1:\n"
        + mark(ROUND, 1)
        + "\tjal inner\n\taddi a3, a3, 1\n\tbnez a3, 1b\n\tmv ra, s0\n"
        + END
        + CALLEE % callee
    )
    (loop,) = stated(built(tmp_path, [text]))["main0"]
    assert loop.bound in (bound, bound and bound - 1)
    if bound is None:
        assert "calls code that may pass the FP_LOOP of own.c:1 it" in loop.doubt


def test_passes_before_the_first_loop_mark(tmp_path: Path) -> None:
    """The loop is entered by ways with and without FP_LOOP: eight rounds are possible before it, in
    a run."""
    loop = loop_of(
        tmp_path,
        "\tbeqz a0, 1f\n\taddi a2, a2, 1\n",
        mark(LOOP | ONLY_FALL, 1),
        "1:\n",
        mark(ROUND, 2),
        "\taddi a3, a3, 1\n\tbnez a3, 1b\n",
    )
    assert loop.bound == 7


def test_half_rounds_are_rounded_down(tmp_path: Path) -> None:
    """Three passes in each round, of eight: two rounds, and a third that doesn't end."""
    loop = loop_of(
        tmp_path,
        "1:\tlw a1, 0(a0)\n",
        *(mark(ROUND, order) + "\taddi a3, a3, 1\n" for order in (1, 2, 3)),
        "\tbnez a3, 1b\n",
    )
    assert loop.bound == 2


def test_a_loop_mark_that_each_way_passes_first(tmp_path: Path) -> None:
    """Each entry of the loop passes FP_LOOP at the head, which the rounds don't pass: the passes
    before it don't count."""
    text = (
        HEAD
        + "1:\n"
        + mark(LOOP)
        + "\taddi a0, a0, 1\n2:\n"
        + mark(ROUND, 1)
        + "\taddi a3, a3, 1\n\tbnez a3, 2b\n\tlw a1, 0(a0)\n\tbnez a1, 1b\n"
        + END
    )
    loops = stated(built(tmp_path, [text]))["main0"]
    assert [it.bound for it in loops] == [None, 7]


def test_a_mark_that_may_be_passed_makes_no_bound_less(tmp_path: Path) -> None:
    """Each round surely passes one FP_ROUND, and maybe a second one."""
    loop = loop_of(
        tmp_path,
        "1:\tlw a1, 0(a0)\n",
        mark(ROUND, 1),
        "\taddi a4, a4, 1\n\tbeqz a1, 2f\n\taddi a2, a2, 1\n\tj 2f\n",
        mark(ROUND | ONLY_FALL, 2),
        "2:\taddi a3, a3, 1\n\tbnez a3, 1b\n",
    )
    assert loop.bound == 8


@pytest.mark.parametrize("kind", [ROUND, LOOP])
def test_a_mark_behind_a_word_that_no_path_reaches(tmp_path: Path, kind: int) -> None:
    """A jump over the word before a mark may come to the mark: FP_LOOP may be passed in each round,
    and FP_ROUND isn't surely."""
    loop = loop_of(
        tmp_path,
        "1:\tlw a1, 0(a0)\n",
        mark(ROUND, 1) if kind == LOOP else "",
        "\taddi a4, a4, 1\n\tj 2f\n\tnop\n",
        mark(kind | ONLY_FALL, 2),
        "2:\taddi a3, a3, 1\n\tbnez a3, 1b\n",
    )
    assert loop.bound is None


@pytest.mark.parametrize(("is_sure", "is_first"), [(True, True), (False, False)])
def test_only_a_loop_mark_that_is_surely_passed_comes_first(is_sure: bool, is_first: bool) -> None:
    claim = Claim("own.c", 1, "it", 8)
    passes = Pass(Mark(8, Kind.LOOP, claim), is_sure), Pass(Mark(8, Kind.ROUND, claim), True)
    flow = LoopFlow(8, [Edge(ENTRY, 8, passes), Edge(8, 8)], frozenset([8]))
    assert flow.is_entered_first(claim) is is_first


def test_a_counter_that_a_called_function_changes(tmp_path: Path) -> None:
    """It is counted only where the function leaves it as it is."""
    for register, bound in (("a5", 7), ("a3", None)):
        text = (
            HEAD
            + "\tmv s0, ra\n\tli a3, 8\n1:\tjal inner\n\taddi a3, a3, -1\n\tbnez a3, 1b\n\tmv ra, s0\n"
            + END
            + (CALLEE % "").replace("a5", register)
        )
        (loop,) = stated(built(tmp_path / register, [text]))["main0"]
        assert loop.bound == bound
