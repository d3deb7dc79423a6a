"""Marks of sections and loops in what fp_layout writes."""
from __future__ import annotations

from pathlib import Path

import pytest
from fptools.testing.common import Tool
from fptools.layout.assembly import Assembly, Fault
from fptools.layout.layout import Marks, Options, lay_out, partner
from fptools.layout.tests.codes import HEAD, LOOP_AT_END, body, code_of, function, laid, mark

RET = "\tret\n"


def test_what_a_section_reaches_comes_between_its_marks() -> None:
    code = (
        mark("work_begin")
        + "\tbne\ta0,zero,.L5\n.L3:\n\tnop\n"
        + mark("work_end")
        + "\tsw\ta0,0(a1)\n\tret\n"
    )
    made = body(code + ".L5:\n\taddi\ta0,a0,1\n\tj\t.L3\n")
    assert made == [
        "work_begin:", "beq a0,zero,.L3", ".L5:", "addi a0,a0,1", ".L3:", "nop", "work_end:", "sw a0,0(a1)", "ret",
    ]  # fmt: skip


def test_marks_keep_what_makes_them_symbols() -> None:
    code = (
        mark("work_begin")
        + "\tbne\ta0,zero,.L5\n.L3:\n"
        + mark("work_end")
        + "\tret\n.L5:\n\tnop\n\tj\t.L3\n"
    )
    text = laid(code).text
    for name in ("work_begin", "work_end"):
        assert f"#APP\n\t.globl {name}\n{name}:\n#NO_APP\n" in text


@pytest.mark.parametrize(
    ("one", "other"),
    [
        ("a_begin", "a_end"),
        ("a_start", "a_end"),
        ("a_start", "a_stop"),
        ("from", "to"),
        ("begin_a", "end_a"),
    ],
)
def test_names_of_two_marks(one: str, other: str) -> None:
    assert partner(one, [one, other, "b_end"]) == other
    assert partner(other, [one, other]) is None


def test_marks_without_partners_are_sections_if_they_can_be() -> None:
    code = (
        mark("red")
        + "\tbne\ta0,zero,.L5\n.L3:\n\tnop\n"
        + mark("blue")
        + "\tret\n.L5:\n\taddi\ta0,a0,1\n\tj\t.L3\n"
    )
    made = body(code)
    assert made.index("red:") < made.index("addi a0,a0,1") < made.index("blue:")
    named = laid(code, Options((Marks("red", "blue"),)))
    assert code_of(named.text)[1:] == made


def test_sections_one_behind_the_other_and_around_both() -> None:
    code = (
        mark("t_begin")
        + "\tbeq\ta0,zero,.L7\n.L1:\n\tnop\n"
        + mark("m")
        + "\tbeq\ta1,zero,.L8\n.L2:\n"
        + mark("t_end")
    )
    made = body(
        code + "\tret\n.L7:\n\tli\ta0,7\n\tj\t.L1\n.L8:\n\tli\ta1,8\n\tj\t.L2\n",
        Options((Marks("t_begin", "m"),)),
    )
    assert made.index("li a0,7") < made.index("m:") < made.index("li a1,8") < made.index("t_end:")


BEGIN_INSIDE = (
    ".L2:\n\tlw\ta4,0(a1)\n"
    + mark("a_begin")
    + "\taddi\ta1,a1,4\n\tbne\ta1,a2,.L2\n"
    + mark("a_end")
    + RET
)

END_INSIDE = (
    mark("a_begin")
    + "\tnop\n.L2:\n\tlw\ta4,0(a1)\n"
    + mark("a_end")
    + "\taddi\ta1,a1,4\n\tbne\ta1,a2,.L2\n\tret\n"
)

ROUND = (
    ".L2:\n"
    + mark("a_begin")
    + "\tlw\ta4,0(a1)\n\tbeq\ta4,zero,.L2\n"
    + mark("a_end")
    + "\tbne\ta1,a2,.L2\n\tret\n"
)
AT_HEAD = (
    ".L2:\n"
    + mark("a_end")
    + "\tlw\ta4,0(a1)\n"
    + mark("a_begin")
    + "\tnop\n\tbne\ta1,a2,.L2\n\tret\n"
)


@pytest.mark.parametrize(
    ("code", "why"),
    [
        (BEGIN_INSIDE, "crosses a loop: it begins inside and ends outside of the loop at line 10"),
        (END_INSIDE, "crosses a loop: it begins outside and ends inside of the loop at line 17"),
        (ROUND, "crosses a loop: the loop at line 16 goes round without passing its end"),
        (
            AT_HEAD,
            "crosses a loop: it ends at the head of the loop at line 16, inside which it begins",
        ),
    ],
)
def test_marks_that_cross_a_loop(tool: Tool, tmp_path: Path, code: str, why: str) -> None:
    (tmp_path / "x.s").write_text(HEAD + function(code) + function(LOOP_AT_END, "g"))
    (tmp_path / "y.s").write_text("old")
    ran = tool("fp_layout", tmp_path / "x.s", "-o", tmp_path / "y.s")
    (line,) = ran.stderr.splitlines()
    assert f"code.c:7: section a_begin:a_end {why}" in line and line.startswith(
        f"fp_layout: {tmp_path}/x.s:"
    )
    assert ran.returncode == 2 and ran.stdout == "" and (tmp_path / "y.s").read_text() == "old"
    assert sorted(it.name for it in tmp_path.iterdir()) == ["x.s", "y.s"]


def test_marks_in_two_functions_and_marks_that_are_none() -> None:
    text = HEAD + function(mark("a_begin") + "\tret\n") + function(mark("a_end") + "\tret\n", "g")
    with pytest.raises(Fault, match="section a_begin:a_end begins in f and ends in g"):
        lay_out(Assembly(text))
    with pytest.raises(
        Fault, match=r"mark a is also at line 12: the compiler doubled its place, .*noinline"
    ):
        lay_out(Assembly(HEAD + function(mark("a") + mark("a") + "\tret\n")))
    with pytest.raises(Fault, match="section p:q: no asm of a function has the label `p`"):
        lay_out(Assembly(text), Options((Marks("p", "q"),)))


def test_a_return_in_a_section_that_other_code_shares() -> None:
    code = (
        mark("a_begin")
        + "\tbeq\ta0,zero,.L9\n\tnop\n"
        + mark("a_end")
        + "\tsw\ta0,0(a1)\n.L9:\n\taddi\tsp,sp,16\n\tret\n"
    )
    made = lay_out(Assembly(HEAD + function(code)))
    assert [it.text for it in made.notes] == [
        "f: section a_begin:a_end has a return before its end, which no bound goes through"
    ]
    lines = code_of(made.text)
    assert lines.count("ret") == 2 and lines.index("ret") < lines.index("a_end:")


def test_a_trap_in_a_section_that_other_code_shares() -> None:
    code = (
        mark("a_begin")
        + "\tbeq\ta0,zero,.L9\n\tnop\n"
        + mark("a_end")
        + "\tbeq\ta1,zero,.L9\n\tret\n.L9:\n\tebreak\n"
    )
    made = laid(code)
    assert not made.notes and code_of(made.text).count("ebreak") == 2


def test_a_trap_in_a_section_inside_a_loop() -> None:
    code = (
        ".L2:\n"
        + mark("a_begin")
        + "\tbeq\ta0,zero,.L9\n\tnop\n"
        + mark("a_end")
        + "\tbeq\ta1,zero,.L9\n\tj\t.L2\n.L9:\n\tebreak\n"
    )
    made = code_of(laid(code).text)
    assert (
        made.index("a_begin:") < made.index("ebreak") < made.index("a_end:")
        and made.count("ebreak") == 2
    )


def test_a_spin_in_a_section_inside_a_loop() -> None:
    code = (
        ".L2:\n"
        + mark("a_begin")
        + "\tbeq\ta0,zero,.L9\n\tnop\n"
        + mark("a_end")
        + "\tlw\ta0,0(a1)\n\tj\t.L2\n"
    )
    made = code_of(laid(code + ".L9:\n\tlw\ta2,0(a1)\n\tj\t.L9\n").text)
    assert made.index("a_begin:") < made.index("lw a2,0(a1)") < made.index("a_end:")


def test_a_loop_in_four_others_is_told() -> None:
    heads = "".join(f".L{k}:\n\taddi\ta{k},a{k},1\n" for k in range(5))
    ends = "".join(f"\tbne\ta{k},a5,.L{k}\n" for k in reversed(range(5)))
    (note,) = laid(heads + ends + RET).notes
    assert note.text == "f: the loop at line 18 lies in 4 others, and a bound takes 3"
