"""`fp_budget --runs`: what a run shows stands over what was said without one. The executables are those of test_holds."""
from __future__ import annotations

import json
import subprocess
from pathlib import Path

import pytest
from fptools.testing.common import TOOLS, TOP, Tool
from fptools.testing.modelled import make, program

HOLDS = TOOLS / "fptools/testing/holds"
OWNERS = ["T0", "T1", "T2", "T3", "T4", "T5", "T6"]
ODD_THEN_EVEN = "[[0, 1], [400, 0], [1500, 1], [2600, 0]]"
LOOP = "[[loop]]\nhead = {}\nlast = {}\nbound = {}\n"
ONE_HEAD_LOOP = LOOP.format("0x3c", "0x58", 7)


class Case:
    """An executable with a setup, in which T0 has each fourth cycle, and one budget."""

    def __init__(
        self, tool: Tool, folder: Path, name: str, inputs: str = "[[0, 15]]", loops: str = ""
    ) -> None:
        self.tool, self.folder, self.elf = tool, folder, HOLDS / f"{name}.elf"
        self.flexpret = program(folder)
        image = folder / "own.fpx"
        image.write_bytes(
            subprocess.run([self.flexpret, "elf", self.elf], capture_output=True, check=True).stdout
        )
        self.setup = folder / "own.toml"
        self.setup.write_text(
            f"period = 10\nimage = {str(image)!r}\nslots = {['T0', 'S', 'S', 'S'] + ['D'] * 4}\n"
            f"i_regions = {[*OWNERS, 'readonly']}\nd_regions = {[*OWNERS, 'shared']}\n"
            f"[[thread]]\nid = 0\nmode = 'hard'\nentry = 0\nconfined = true\ninputs = {inputs}\n{loops}"
        )

    def judged(
        self, most: int, cycles: int, more: str = "", start: str = "work_begin"
    ) -> tuple[int, str]:
        budgets = self.folder / "budgets.toml"
        budgets.write_text(
            f'[[budget]]\nname = "it"\nthread = 0\nfrom = "{start}"\nto = "work_end"\ncycles = {most}\ncalls = true\n{more}'
        )
        words = ("--elf", self.elf, "--src", HOLDS, "--flexpret", self.flexpret, "--runs", cycles)
        ran = self.tool("fp_budget", self.setup, budgets, *words)
        return ran.returncode, ran.stdout


@pytest.fixture
def folder(tmp_path: Path) -> Path:
    return tmp_path


def test_a_budget_that_holds_in_a_run(tool: Tool, folder: Path) -> None:
    status, text = Case(tool, folder, "kept").judged(1000, 2000)
    assert (status, text) == (
        0,
        "holds    T0 it: 48 of 1000 cycles (480 ns); the longest of 2 executions takes 48\n",
    )


@pytest.mark.parametrize(("name", "most"), [("emulates", 20), ("expires", 500)])
def test_traps_that_come_back(tool: Tool, folder: Path, name: str, most: int) -> None:
    """What an assumption leaves out is over in a run."""
    status, text = Case(tool, folder, name).judged(most, 9000, 'assume = ["no traps"]\n')
    assert status == 1
    assert text.startswith("OVER     T0 it: an execution with a trap takes ")
    assert f" of {most} cycles, from cycle " in text


def test_a_run_above_a_bound_without_a_budget(tool: Tool, folder: Path) -> None:
    """What an assumption leaves out breaks the bound in a run."""
    case = Case(tool, folder, "emulates")
    words = ("--src", HOLDS, "--flexpret", case.flexpret, "--assume", "no traps", "--runs", 9000)
    section = ("--thread", 0, "--from-label", "work_begin", "--to-label", "work_end")
    ran = tool("fp_budget", case.elf, "--setup", case.setup, *section, *words)
    assert ran.returncode == 2
    assert ran.stdout.startswith(
        "UNKNOWN  T0 work_begin to work_end: an execution with a trap takes "
    )


JUMPS = """
        la   x1, hand
        csrw mtvec, x1
        li   x8, 0x40000000
begin:  la   x7, back
        lw   x5, 0(x8)
        lw   x6, 1(x8)
back:   addi x6, x6, 1
end:    j    begin
{handler}
stop:   j    stop
"""
LATER = "hand:   li   x9, 300\nz:      addi x9, x9, -1\n        bnez x9, z\n"


@pytest.mark.parametrize(
    "handler",
    [
        "        la   x7, stop\nhand:   jr   x7",
        f"        la   x7, stop\njump:   jr   x7\n{LATER}        la   x7, back\n        j    jump",
        f"        la   x7, stop\njump:   jr   x7\n{LATER}        la   x2, jump\n        la   x7, back\n        jr   x2",
    ],
)  # fmt: skip
def test_a_jump_that_is_reached_from_elsewhere_than_the_words_before(
    tool: Tool, folder: Path, handler: str
) -> None:
    """By a trap, a jump, or a jump by a register: these words don't give its register its number."""
    it = make(folder, JUMPS.format(handler=handler), 0)
    budgets = folder / "budgets.toml"
    start, end = it.labels["begin"], it.labels["end"]
    budgets.write_text(
        f'[[budget]]\nname = "it"\nthread = 0\nfrom = {start}\nto = {end}\ncycles = 4000\nassume = ["moved work"]\n'
    )
    ran = tool("fp_budget", it.setup, budgets, "--flexpret", program(folder))
    assert ran.returncode == 2
    assert "jumps to an address that isn't known here: no bound counts a trap handler" in ran.stdout


def test_two_loops_with_one_head(tool: Tool, folder: Path) -> None:
    case = Case(tool, folder, "one_head", ODD_THEN_EVEN, ONE_HEAD_LOOP)
    status, text = case.judged(500, 9000, 'assume = ["loop tables"]\n')
    assert status == 1
    assert text.startswith("OVER     T0 it: an execution takes ")
    status, text = case.judged(5000, 9000, 'assume = ["loop tables"]\n')
    assert status == 2
    assert "its table says 7" in text


def test_an_execution_that_does_not_end(tool: Tool, folder: Path) -> None:
    case = Case(tool, folder, "one_head", "[[0, 1]]", ONE_HEAD_LOOP)
    status, text = case.judged(500, 9000, 'assume = ["loop tables"]\n')
    assert status == 1
    assert text.startswith("OVER     T0 it: an execution that goes on takes 8")
    status, text = case.judged(10000, 9000, 'assume = ["loop tables"]\n')
    assert (status, "its table says 7" in text) == (2, True)


def test_a_section_that_never_runs(tool: Tool, folder: Path) -> None:
    status, text = Case(tool, folder, "kept").judged(1000, 4)
    assert (status, text) == (
        2,
        "UNKNOWN  T0 it: no execution in 4 cycles; 48 of 1000 cycles (480 ns)\n",
    )


def test_what_is_unknown_stays_so_in_a_run(tool: Tool, folder: Path) -> None:
    status, text = Case(tool, folder, "emulates").judged(1000, 3000)
    assert status == 2
    assert text.startswith("UNKNOWN  T0 it: ") and "executions takes 436" in text
    status, text = Case(tool, folder, "kept").judged(1000, 300, start="nowhere")
    assert (status, "nowhere is no symbol" in text) == (2, True)


def test_a_run_that_breaks_a_bound(tool: Tool, folder: Path) -> None:
    case = Case(tool, folder, "kept")
    low = folder / "low"
    low.write_text(
        f'#!/bin/sh\ncase $1 in calls) echo bound 40 ;; *) exec {case.flexpret} "$@" ;; esac\n'
    )
    low.chmod(0o755)
    case.flexpret = low
    status, text = case.judged(1000, 2000)
    assert status == 2
    assert "above its bound of 40, though each loop kept its table: a fault of the analyser" in text


def from_names(case: Case, *words: str) -> tuple[int, str]:
    """The status and the text of a bound from names alone, with a run."""
    asked = (
        case.elf,
        "--setup",
        case.setup,
        "--thread",
        0,
        *words,
        "--src",
        HOLDS,
        "--flexpret",
        case.flexpret,
    )
    ran = case.tool("fp_budget", *asked, "--runs", 3000)
    return ran.returncode, ran.stdout


def test_a_function_and_a_section_from_names(tool: Tool, folder: Path) -> None:
    """The loops have the tables that the tool made; the setup has none."""
    case = Case(tool, folder, "callee")
    status, text = from_names(case, "--function", "sum_of")
    first = "bound    T0 sum_of: 412 cycles (4120 ns); the longest of 6 executions takes 412"
    assert (status, text.splitlines()[0]) == (0, first)
    status, text = from_names(case, "--function", "sum_of", "--cycles", "400")
    assert (
        status,
        text.startswith("OVER     T0 sum_of: an execution takes 412 of 400 cycles, from cycle "),
    ) == (1, True)
    status, text = from_names(
        case, "--from-label", "work_begin", "--to-label", "work_end", "--json"
    )
    (result,) = json.loads(text)["results"]
    assert (status, result["bound"], result["longest"], result["executions"]) == (0, 416, 416, 6)


def test_a_run_needs_the_image(tool: Tool, folder: Path) -> None:
    case = Case(tool, folder, "callee")
    (folder / "own.fpx").unlink()
    words = (
        "--setup",
        case.setup,
        "--thread",
        0,
        "--function",
        "sum_of",
        "--flexpret",
        case.flexpret,
        "--runs",
        9,
    )
    ran = tool("fp_budget", case.elf, *words)
    assert ran.returncode == 2
    assert ran.stderr.endswith("own.fpx isn't there, and --runs needs the setup's image\n")


@pytest.mark.parametrize("cycles", ["x", "-1", "5000000000"])
def test_usage(tool: Tool, cycles: str) -> None:
    ran = tool("fp_budget", "examples/c/pid.toml", "examples/c/budgets.toml", f"--runs={cycles}")
    assert ran.returncode == 2
    assert "argument --runs: invalid" in ran.stderr


def test_a_run_that_fails(tool: Tool, folder: Path) -> None:
    script = folder / "fails"
    script.write_text(
        "#!/bin/sh\necho bound 4\n[ $1 != run ] || { echo flexpret: out of memory >&2; exit 9; }\n"
    )
    script.chmod(0o755)
    words = ("--elf", "examples/c/pid.elf", "--flexpret", script, "--runs", "100")
    ran = tool("fp_budget", "examples/c/pid.toml", "examples/c/budgets.toml", *words)
    assert ran.returncode == 2
    assert TOP and ran.stderr.endswith("status 9: flexpret: out of memory\n")


@pytest.mark.parametrize(
    ("name", "inputs", "table", "most", "kind"),
    [
        (
            "head_test",
            "[[0, 15]]",
            14,
            1000,
            "TABLE",
        ),  # a loop that tests at its head, with a table one too small
        (
            "one_head",
            ODD_THEN_EVEN,
            7,
            5000,
            "TABLE",
        ),  # two loops with one head, and the table of one
        ("taps32", "[[0, 15]]", 15, 5000, "TABLE"),  # a table that the code has outgrown
        ("emulates", "[[0, 15]]", None, 20, "OVER"),  # a trap handler that comes back
        ("expires", "[[0, 15]]", None, 500, "OVER"),  # an expiry that was armed before the section
    ],
)
def test_what_a_run_shows_by_itself(
    tool: Tool, folder: Path, name: str, inputs: str, table: int | None, most: int, kind: str
) -> None:
    """fp_visits shows what a budget could leave out, without looking at the code's ways."""
    loops = ""
    if table is not None:
        section = ("--from", "work_begin", "--to", "work_end", "--calls", "--src", HOLDS)
        found = tool("fp_loops", HOLDS / f"{name}.elf", *section).stdout
        head = next(line for line in found.splitlines() if line.startswith("head"))
        last = next(line for line in found.splitlines() if line.startswith("last"))
        loops = f"[[loop]]\n{head}\n{last}\nbound = {table}\n"
    case = Case(tool, folder, name, inputs, loops)
    budgets = folder / "budgets.toml"
    budgets.write_text(
        f'[[budget]]\nname = "it"\nthread = 0\nfrom = "work_begin"\nto = "work_end"\ncycles = {most}\ncalls = true\n'
    )
    words = ("--setup", case.setup, "--elf", case.elf, "--budgets", budgets, "--cycles", 9000)
    ran = tool("fp_visits", *words, "--flexpret", case.flexpret)
    assert ran.returncode == 1, ran.stderr
    assert [
        line.split()[0]
        for line in ran.stdout.splitlines()
        if line[:5] in ("TABLE", "OVER ", "FAULT")
    ] == [kind]
