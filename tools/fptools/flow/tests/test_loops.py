"""What fp_loops writes of sections; loops.elf has line tables, pid.elf has none."""
from __future__ import annotations

import os
from pathlib import Path

import pytest
from fptools.testing.common import TOOLS, TOP, Tool
from fptools.files.image import read_image
from fptools.flow.inference import StatedLoop
from fptools.flow.tables import is_whole
from fptools.code.section import Loop, Section, walk
from fptools.files.setup import read_setup

LOOPS = "tools/fptools/testing/loops.elf"
SRC = ("--src", "tools/fptools/testing")


def test_a_section_with_all_its_bounds(tool: Tool) -> None:
    ran = tool("fp_loops", LOOPS, "--from", "grid_begin", "--to", "grid_end", *SRC)
    assert (
        ran.stdout
        == """\
[[loop]]  # grid_begin+0x10 to grid_begin+0x44, loops.c:22: the code counts 3 rounds
head = 0x50
last = 0x84
bound = 2

[[loop]]  # grid_begin+0x28 to grid_begin+0x3c, loops.c:25: loops.c:24 column, 5
head = 0x68
last = 0x7c
bound = 4

# 0x84 grid_begin+0x44 to 0x88 grid_end: reaches the end
"""
    )
    assert ran.returncode == 0


def test_a_loop_that_the_code_counts(tool: Tool) -> None:
    ran = tool("fp_loops", LOOPS, "--from", "sum_of", "--to", "sum_of+0x24", *SRC)
    assert "loops.c:13: the code counts 4 rounds\n" in ran.stdout and "bound = 3\n" in ran.stdout
    assert (ran.returncode, ran.stderr) == (0, "")


def test_a_loop_that_nothing_bounds(tool: Tool) -> None:
    ran = tool("fp_loops", LOOPS, "--from", "call_end", "--to", "wait_end", *SRC)
    assert "bound = ?  # no FP_ROUND is in the loop in loops.c:31" in ran.stdout
    assert ran.returncode == 1


def test_an_old_comment_is_told_once(tool: Tool, tmp_path: Path) -> None:
    text = (
        (TOOLS / "fptools/testing/loops.c")
        .read_text()
        .replace("index++)", "index++) /* @rounds 4 */")
    )
    (tmp_path / "loops.c").write_text(text.replace("row++) {", "row++) { /* @rounds 3 */"))
    made = (TOOLS / "fptools/testing/loops.elf").stat().st_mtime_ns
    os.utime(tmp_path / "loops.c", ns=(made, made))
    ran = tool("fp_loops", LOOPS, "--from", "grid_begin", "--to", "grid_end", "--src", tmp_path)
    assert (ran.returncode, ran.stderr) == (
        0,
        "fp_loops: loops.c:13: comments `@rounds` aren't read: write FP_LOOP and FP_ROUND, or call fp_rewrite_rounds\n",
    )


def test_a_call_leaves_a_section_and_comes_back_with_calls(tool: Tool) -> None:
    words = ("fp_loops", "examples/c/pid.elf", "--from", "start0", "--to", "stopped0")
    assert "# 0x14 start0+0x14 to 0x54 main0: a call leaves the section" in tool(*words).stdout
    assert tool(*words).returncode == 1
    ran = tool(*words, "--calls")
    assert "# 0x14 start0+0x14 to 0x18 stopped0: reaches the end\n# called: main0\n" in ran.stdout
    assert "# 0x1a4 step_end: a timed wait: it has no bound\n" in ran.stdout
    assert ran.returncode == 1


def test_a_section_that_never_reaches_its_end_is_not_whole() -> None:
    loop = Loop(4, (4,))
    stated = [StatedLoop(loop, by_marks=3)]
    assert not is_whole(Section(0, 8, loops=[loop]), stated)


def test_without_an_end_the_function_is_the_section(tool: Tool) -> None:
    ran = tool("fp_loops", LOOPS, "--from", "sum_of", *SRC)
    assert ran.stdout.endswith("# 0x24 sum_of+0x24: returns\n")
    assert ran.returncode == 0
    ran = tool("fp_loops", "examples/c/pid.elf", "--from", "start0")
    assert (ran.returncode, ran.stderr) == (
        2,
        "fp_loops: start0 is in no function, so --to is needed\n",
    )


@pytest.mark.parametrize(
    ("setup", "start", "end", "routines"),
    [("sum", 0x10, 0x3C, ()), ("nest", 0x8, 0x20, ()), ("calls", 0x8, 0x18, (0x100, 0x140))],
)
def test_the_loops_of_the_examples_are_those_of_their_setups(
    setup: str, start: int, end: int, routines: tuple[int, ...]
) -> None:
    section = walk(read_image(TOP / f"examples/{setup}.fpx"), start, end, routines)
    tables = read_setup(TOP / f"examples/{setup}.toml").values["loop"]
    assert [(it.head, it.last) for it in section.loops] == [
        (it["head"], it["last"]) for it in tables
    ]
    assert section.callees == set(routines)
