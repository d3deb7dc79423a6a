"""No budget "holds" where a run takes longer: sections of data/holds, their bounds, and their longest execution in a run."""
from __future__ import annotations

import os
import subprocess
from pathlib import Path
from typing import Iterator

import pytest
from fptools.testing.common import TOOLS, Tool
from fptools.files.elf import Inlined, Program
from fptools.code.moved import NotKnown, moved_word
from fptools.code.section import walk
from fptools.files.sources import Sources
from fptools.code.thread import Code

HOLDS = TOOLS / "fptools/testing/holds"
SRC = ("--src", str(HOLDS))
REGIONS = ["T0", "T1", "T2", "T3", "T4", "T5", "T6"]
THREAD = "[[thread]]\nid = 0\nmode = 'hard'\nentry = 0\nconfined = true\n"
# What the port shows from which cycle on.
FIFTEEN = "inputs = [[0, 15]]\n"
ODD_THEN_EVEN = "inputs = [[0, 1], [400, 0], [1500, 1], [2600, 0]]\n"


class Case:
    """An executable of data/holds with its setup, in which T0 has each fourth cycle."""

    def __init__(self, asking: Tool, flexpret: str, folder: Path, name: str) -> None:
        self.asking, self.flexpret, self.folder = asking, flexpret, folder
        self.elf = HOLDS / f"{name}.elf"
        self.setup, self.image = folder / "own.toml", folder / "own.fpx"
        made = subprocess.run([flexpret, "elf", str(self.elf)], capture_output=True, check=True)
        self.image.write_bytes(made.stdout)

    def set_up(self, loops: str = "", more: str = FIFTEEN, thread: str = THREAD) -> None:
        self.setup.write_text(
            f"period = 10\nimage = {str(self.image)!r}\nslots = {['T0', 'S', 'S', 'S'] + ['D'] * 4}\n"
            f"i_regions = {[*REGIONS, 'readonly']}\nd_regions = {[*REGIONS, 'shared']}\n{thread}{more}{loops}"
        )

    def loops(self, start: str, end: str, *options: str) -> tuple[int, str]:
        """The status of fp_loops, and what it writes."""
        ran = self.asking("fp_loops", self.elf, "--from", start, "--to", end, *SRC, *options)
        return ran.returncode, ran.stdout

    def judged(
        self, cycles: int, more: str = "", start: str = "work_begin", end: str = "work_end"
    ) -> tuple[int, str]:
        """The status of fp_budget for a section with calls, and what it writes of it."""
        budgets = self.folder / "budgets.toml"
        budgets.write_text(
            f'[[budget]]\nname = "it"\nthread = 0\nfrom = "{start}"\nto = "{end}"\ncycles = {cycles}\n'
            f"calls = true\n{more}"
        )
        ran = self.asking("fp_budget", self.setup, budgets, "--elf", self.elf, *SRC)
        return ran.returncode, ran.stdout + ran.stderr

    def longest(self, cycles: int, start: str = "work_begin", end: str = "work_end") -> int:
        """The cycles of the longest execution in a run, from the section's first word to its end."""
        program = Program(self.elf)
        first, last = program.address(start), program.address(end)
        run = [self.flexpret, "run", str(self.setup), "--thread", "0", "--cycles", str(cycles)]
        text = subprocess.run(run, capture_output=True, check=True, text=True).stdout
        begun, most = None, 0
        for line in text.splitlines():
            cycle, pc = int(line.split()[0]), int(line.split()[1], 16)
            if pc == first:
                begun = cycle
            if pc == last and begun is not None:
                most = max(most, cycle - begun)
        return most


@pytest.fixture
def case(request: pytest.FixtureRequest, asking: Tool, flexpret: str, tmp_path: Path) -> Case:
    return Case(asking, flexpret, tmp_path, request.param)


def of(name: str) -> pytest.MarkDecorator:
    return pytest.mark.parametrize("case", [name], indirect=True)


def loop(head: int, last: int, bound: int) -> str:
    return f"[[loop]]\nhead = {head:#x}\nlast = {last:#x}\nbound = {bound}\n"


@of("head_test")
def test_a_loop_that_tests_before_its_body_goes_back_n_times(case: Case) -> None:
    status, loops = case.loops("work_begin", "work_end", "--calls")
    assert (status, "bound = 15\n" in loops, "called: sum_of" in loops) == (0, True, True)
    case.set_up(loops)
    # The bound counts a part of a round more: one that is begun, and can't go back.
    assert case.longest(2000) == 528
    assert case.judged(544)[0] == 0
    assert case.judged(543)[0] == 1
    case.set_up(loops.replace("bound = 15", "bound = 14"))
    status, text = case.judged(528)
    assert status == 2
    assert "head_test.c:7 i, 15, which is bound = 15; the setup's table has 14" in text


@of("left_first")
def test_a_loop_that_is_left_at_the_begin_of_its_body_goes_back_n_times(case: Case) -> None:
    status, loops = case.loops("work_begin", "work_end")
    assert (status, "bound = 15\n" in loops) == (0, True)
    case.set_up(loops)
    # The bound counts a part of a round more: one that is begun, and can't go back.
    assert case.longest(2000) == 752
    assert (case.judged(772)[0], case.judged(771)[0]) == (0, 1)
    case.set_up(loops.replace("bound = 15", "bound = 14"))
    assert case.judged(772)[0] == 2


@of("folded")
def test_functions_of_the_same_code_with_other_claims_stay_apart(case: Case) -> None:
    """With -fipa-icf too: their marks are other ones."""
    status, loops = case.loops("work_begin", "work_end", "--calls")
    assert (status, loops.count("[[loop]]"), "bound = 3\n" in loops, "bound = 14\n" in loops) == (
        0,
        2,
        True,
        True,
    )
    case.set_up(loops)
    longest = case.longest(2000)
    assert case.judged(longest - 1)[0] == 1


@of("unfolded")
def test_functions_that_are_kept_apart(case: Case) -> None:
    status, loops = case.loops("work_begin", "work_end", "--calls")
    assert (status, loops.count("[[loop]]")) == (0, 2)
    case.set_up(loops)
    assert (case.judged(580)[0], case.judged(579)[0]) == (0, 1)
    assert case.longest(2000) <= 580


@of("one_head")
def test_two_loops_with_one_head(case: Case) -> None:
    status, loops = case.loops("work_begin", "work_end")
    assert status == 1
    assert "bound = ?  # no FP_ROUND is in the loop in one_head.c:9 to 12" in loops
    case.set_up(loops.replace("?", "7"), ODD_THEN_EVEN)
    assert case.longest(9000) > 500
    status, text = case.judged(500)
    assert status == 2
    assert "only the setup's table bounds this loop" in text
    assert "no FP_ROUND is in the loop in one_head.c:9 to 12" in text


def test_a_table_that_the_code_has_outgrown(asking: Tool, flexpret: str, tmp_path: Path) -> None:
    old = Case(asking, flexpret, tmp_path, "taps16")
    status, loops = old.loops("work_begin", "work_end")
    assert (status, "bound = 15\n" in loops) == (0, True)
    old.set_up(loops)
    longest = old.longest(3000)
    assert old.judged(longest)[0] == 0
    new = Case(asking, flexpret, tmp_path, "taps32")
    new.set_up(loops)
    assert new.longest(3000) > longest
    status, text = new.judged(longest)
    assert status == 2
    assert (
        "the code counts 32 rounds, the marks state 16 (taps.c:10 i, 16): correct the n of FP_LOOP"
        in text
    )
    assert new.loops("work_begin", "work_end")[0] == 1


@of("moved")
def test_work_that_the_compiler_moves_behind_a_mark(case: Case) -> None:
    case.set_up()
    status, text = case.judged(40)
    assert status == 0
    assert (
        "(moved.c:9): it comes of a line between the marks, and is done outside of the section"
        in text
    )
    assert "FP_KEEP" in text
    assert "outside of the section" not in case.judged(40, 'assume = ["moved work"]\n')[1]


@of("marked")
@pytest.mark.parametrize(
    ("mark", "says"),
    [
        (
            "inlined",
            "(marked.c:11): it comes of a line between the marks, and is done outside of the section",
        ),
        (
            "once",
            "(marked.c:31): it comes of a line between the marks, and is done outside of the section",
        ),
        ("macro", "no lines of the sources have FP_MARK(macro_begin): one alone has to"),
        ("line", "fp_budget: T0 it: nothing tells whether work was moved out of the section: "),
    ],
)
def test_marks_that_are_hard_to_find(case: Case, mark: str, says: str) -> None:
    case.set_up()
    start, end = f"{mark}_begin", f"{mark}_end"
    assert case.longest(2000, start, end) <= 8
    status, text = case.judged(40, start=start, end=end)
    assert (status, says in text) == (0, True)


@of("marked")
def test_marks_of_sources_that_are_elsewhere(case: Case) -> None:
    case.set_up()
    budgets = case.folder / "budgets.toml"
    budgets.write_text(
        '[[budget]]\nname = "it"\nthread = 0\nfrom = "once_begin"\nto = "once_end"\ncycles = 40\n'
    )
    ran = case.asking("fp_budget", case.setup, budgets, "--elf", case.elf, "--src", case.folder)
    assert ran.returncode == 0
    assert "no lines of the sources have FP_MARK(once_begin)" in ran.stderr
    assert "isn't found: --src" in ran.stderr


@of("moved")
def test_moved_work_of_a_section_by_numbers(case: Case) -> None:
    case.set_up()
    program = Program(case.elf)
    start, end = program.address("work_begin"), program.address("work_end")
    ask = ("fp_budget", case.elf, "--setup", case.setup, "--thread", 0, *SRC, "--cycles", 40)
    ran = case.asking(*ask, "--from-label", f"{start:#x}", "--to-label", f"{end:#x}")
    assert (ran.returncode, "is done outside of the section" in ran.stderr) == (0, True)


@of("kept")
def test_debugging_information_of_an_unknown_form(
    case: Case, monkeypatch: pytest.MonkeyPatch
) -> None:
    """What isn't known of inlined and folded functions is told, and isn't taken for none."""

    def broken(*_: object) -> Iterator[Inlined]:
        raise ValueError
        yield

    program, sources = Program(case.elf), Sources(HOLDS)
    start, end = program.address("work_begin"), program.address("work_end")
    section, code = walk(program.words, start, end), Code(program.words)
    asked = (section, code, program, sources, 0, ("work_begin", "work_end"))
    assert moved_word(*asked) is None
    monkeypatch.setattr("fptools.files.elf._inlined_of", broken)
    asked = (section, code, Program(case.elf), sources, 0, ("work_begin", "work_end"))
    with pytest.raises(NotKnown, match="-gdwarf-4"):
        moved_word(*asked)


@of("moved_plain")
def test_moved_work_without_line_tables(case: Case) -> None:
    case.set_up()
    status, text = case.judged(40)
    assert status == 2
    assert (
        "nothing tells whether work was moved out of the section: the code has no line tables"
        in text
    )
    status, text = case.judged(40, 'assume = ["moved work"]\n')
    assert (status, "assumes moved work: nothing tells" in text) == (0, True)


@of("noline")
def test_moved_work_of_no_line(case: Case) -> None:
    case.set_up()
    status, text = case.judged(40)
    assert status == 0
    assert "work_end+0x" in text and "is outside of it, and comes of no line" in text


@of("head_test")
def test_a_source_that_is_newer_than_the_executable(case: Case) -> None:
    elf, source = case.folder / "head_test.elf", case.folder / "head_test.c"
    elf.write_bytes(case.elf.read_bytes())
    source.write_bytes((HOLDS / "head_test.c").read_bytes())
    case.set_up(case.loops("work_begin", "work_end", "--calls")[1])
    ask = ("fp_budget", elf, "--setup", case.setup, "--thread", 0, "--src", case.folder)
    section = ("--from-label", "work_begin", "--to-label", "work_end", "--cycles", 544)
    made = elf.stat().st_mtime_ns
    os.utime(source, ns=(made, made))
    assert case.asking(*ask, *section).returncode == 0
    os.utime(source, ns=(made + 1, made + 1))
    ran = case.asking(*ask, *section)
    assert ran.returncode == 2
    assert (
        "head_test.c is newer than head_test.elf, so its lines may be others: build it again"
        in ran.stdout
    )
    assert case.asking(*ask, *section, "--assume", "same sources").returncode == 0
    ran = case.asking("fp_loops", elf, "--from", "sum_of", "--src", case.folder)
    assert (ran.returncode, "head_test.c is newer than head_test.elf" in ran.stderr) == (1, True)


@of("kept")
def test_work_that_is_kept_before_a_mark(case: Case) -> None:
    case.set_up()
    status, text = case.judged(1000)
    assert (status, text) == (0, "holds    T0 it: 48 of 1000 cycles (480 ns)\n")
    assert case.longest(2000) == 48


@of("other_thread")
def test_a_thread_that_cannot_fetch_the_section(case: Case) -> None:
    case.set_up()
    status, text = case.judged(1000)
    assert status == 2
    assert (
        "work_begin (other_thread.c:7): T0 is confined and can't fetch here: the region is T1's"
        in text
    )


@of("other_thread")
def test_a_thread_that_never_gets_to_the_section(case: Case) -> None:
    case.set_up(thread=THREAD.replace("true", "false"))
    status, text = case.judged(1000)
    assert status == 2
    assert "work_begin (other_thread.c:7): T0 doesn't get here from its entry 0x0 start0" in text
    assert case.judged(1000, 'assume = ["reached"]\n')[0] == 0


@of("expires")
def test_an_expiry_that_is_armed_before_the_section(case: Case) -> None:
    case.set_up()
    assert case.longest(9000) > 500
    status, text = case.judged(500)
    assert status == 2
    assert "MRET goes on where a trap was" in text
    assert "an EE: no bound counts a trap handler" in text
    status, text = case.judged(500, 'assume = ["no traps"]\n')
    assert status == 0
    assert "assumes no traps: it is of executions without a trap" in text


@of("emulates")
def test_a_trap_handler_that_emulates_a_load(case: Case) -> None:
    case.set_up()
    assert case.longest(9000) > 400
    status, text = case.judged(20)
    assert status == 2
    assert "MRET goes on where a trap was: no bound counts a trap handler" in text


@of("callee")
def test_loops_of_called_functions(case: Case) -> None:
    status, loops = case.loops("work_begin", "work_end", "--calls")
    assert (status, loops.count("[[loop]]"), "bound = 15\n" in loops) == (0, 1, True)
    assert case.loops("work_begin", "work_end")[0] == 1
    ran = case.asking("fp_loops", case.elf, "--from", "sum_of", *SRC)
    assert ran.returncode == 0
    assert ran.stdout.split("\n\n")[0] == loops.split("\n\n")[0]
    assert ran.stdout.endswith("sum_of+0x2c: returns\n")


@of("callee")
def test_a_switch_table_of_a_called_function(case: Case) -> None:
    status, loops = case.loops("choice_begin", "choice_end", "--calls")
    assert status == 1
    assert "# called: chosen" in loops
    assert "an indirect jump" in loops
    case.set_up()
    status, text = case.judged(1000, start="choice_begin", end="choice_end")
    assert status == 2
    assert "IndirectJump" in text
    assert "-fno-jump-tables" in text
    assert "chosen+0x18 (callee.c:13)" in text


@of("crossing")
def test_an_outer_loop_that_goes_back_from_an_inner_one(case: Case) -> None:
    status, loops = case.loops("work_begin", "work_end")
    tables = [it.split("\n")[1:3] for it in loops.split("\n\n") if it.startswith("[[loop]]")]
    assert tables == [["head = 0x8", "last = 0x20"], ["head = 0x10", "last = 0x20"]]
    case.set_up(loops.replace("?", "4"))
    assert case.judged(1000)[0] == 2
    assert case.judged(1000, 'assume = ["loop tables"]\n')[0] == 0


@of("elsewhere")
def test_a_function_that_returns_elsewhere(case: Case) -> None:
    case.set_up()
    status, text = case.judged(1000, end="other")
    assert status == 2
    assert "astray+0x8 (elsewhere.s:" in text
    assert "it isn't certain that this goes back to the call: x1 and x2 change" in text
    status, text = case.judged(1000, start="other")
    assert (status, "whether the stack fits is unknown: 0x14 astray (elsewhere.s:" in text) == (
        2,
        True,
    )
    assert case.judged(1000, 'assume = ["stack fits"]\n', start="other")[0] == 0


@pytest.mark.parametrize(
    ("function", "bound"),
    [
        ("continued", "14"),
        ("endless", "16"),
        ("empty", "9"),
        ("hidden", "7"),
        ("oneline", "?  # a round may pass FP_LOOP(k) again, at shapes.c:49"),
        ("unrolled", "?  # a round may pass FP_LOOP(k) again, at shapes.c:56"),
        ("tested_last", "15"),
    ],
)
def test_marks_of_loops_of_many_shapes(tool: Tool, function: str, bound: str) -> None:
    ran = tool("fp_loops", HOLDS / "shapes.elf", "--from", function, *SRC)
    assert next(it for it in ran.stdout.splitlines() if it.startswith("bound")).startswith(
        f"bound = {bound}"
    )
    assert ran.returncode == ("bound = ?" in ran.stdout)


def test_the_mark_of_an_unrolled_loop_bounds_no_loop_around(tool: Tool) -> None:
    ran = tool("fp_loops", HOLDS / "shapes_o3.elf", "--from", "unrolled", *SRC)
    assert (ran.returncode, ran.stdout.count("[[loop]]"), ran.stdout.count("bound = ?")) == (
        1,
        1,
        1,
    )
