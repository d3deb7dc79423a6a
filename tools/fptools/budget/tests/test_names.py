"""The bound of a function or a section from names alone, and what stands against one."""
from __future__ import annotations

import json
import subprocess
from pathlib import Path
from xml.etree import ElementTree

import pytest
from fptools.testing.common import TOOLS, TOP, Tool
from fptools.budget.names import jump_and_link, toml_of
from fptools.files.setup import read_setup
from fptools.files.toml import read_toml
from fptools.isa.words import Word

HOLDS = TOOLS / "fptools/testing/holds"
PID = ("examples/c/pid.elf", "--setup", "examples/c/pid.toml", "--thread", "0")
STEP = ("--from-label", "step_begin", "--to-label", "step_end")
ASSUMED = ("--assume", "no traps", "--assume", "moved work")


class Named:
    """Asks for bounds in an executable of data/holds, by a setup without tables of loops, whose image isn't there."""

    def __init__(self, asking: Tool, folder: Path) -> None:
        self.asking, self.folder = asking, folder
        text = (TOP / "examples/c/pid.toml").read_text()
        self.setup = folder / "own.toml"
        self.setup.write_text(
            text[: text.index("# The sum of eight")].replace("examples/c/pid", f"{folder}/own")
        )

    def __call__(self, name: str, *words: str) -> subprocess.CompletedProcess[str]:
        elf = HOLDS / f"{name}.elf"
        return self.asking(
            "fp_budget", elf, "--setup", self.setup, "--thread", "0", "--src", HOLDS, *words
        )

    def text(self, name: str, *words: str) -> tuple[int, str]:
        ran = self(name, *words)
        return ran.returncode, ran.stdout


@pytest.fixture
def named(asking: Tool, tmp_path: Path) -> Named:
    return Named(asking, tmp_path)


def test_a_section_with_its_loops(asking: Tool) -> None:
    ran = asking("fp_budget", *PID, *STEP, *ASSUMED)
    assert (ran.returncode, ran.stdout) == (
        0,
        "bound    T0 step_begin to step_end: 352 cycles (3520 ns)\n"
        "         loop 0xf0 step_begin+0x3c: goes back 7 times: the code counts 8 rounds\n"
        "         stack 32 of 2,000 bytes: main0 (16) > trap: on_trap (16)\n",
    )
    ran = asking("fp_budget", *PID, *STEP, *ASSUMED, "--ns", "3519")
    assert (ran.returncode, ran.stdout.splitlines()[0]) == (
        1,
        "OVER     T0 step_begin to step_end: 352 of 351 cycles (3520 ns)",
    )
    assert asking("fp_budget", *PID, *STEP).returncode == 2


def test_a_function_with_its_loop(named: Named) -> None:
    # A jump table elsewhere may lead anywhere, so that the code's own count isn't certain.
    assert named.text("callee", "--function", "sum_of", "--function", "main0") == (
        2,
        "bound    T0 sum_of: 412 cycles (4120 ns)\n"
        "         calls 0x1c sum_of (callee.c:8)\n"
        "         loop 0x30 sum_of+0x14 (callee.c:8): goes back 15 times: the code counts 16 rounds\n"
        "         stack unknown: 0x64 chosen+0x18 (callee.c:13): a jump by a register: where to isn't known; "
        "-fno-jump-tables for a switch\n"
        "UNKNOWN  T0 main0: 0x64 chosen+0x18 (callee.c:13): an indirect jump: it has no bound; "
        "a switch by a table (-fno-jump-tables), or a call through a pointer\n",
    )


def test_a_function_whose_loop_states_nothing(named: Named) -> None:
    status, text = named.text("one_head", "--from-label", "work_begin", "--to-label", "work_end")
    assert status == 2
    assert "nothing bounds this loop (no FP_ROUND is in the loop in one_head.c:9 to 12" in text
    status, text = named.text(
        "one_head",
        "--from-label",
        "work_begin",
        "--to-label",
        "work_end",
        "--assume",
        "loop tables",
    )
    assert (status, "neither marks, nor code, nor the setup bound this loop" in text) == (2, True)


def test_a_tail_call(named: Named) -> None:
    status, text = named.text("tail", "--function", "first")
    assert status == 2
    assert "first+0x18 (tail.c:5) to 0x1c second (tail.c:4): leaves for another address" in text
    assert "-fno-optimize-sibling-calls" in text


def test_a_function_that_no_call_leads_to(named: Named) -> None:
    # It is reached by the jump of a tail call.
    assert named.text("tail", "--function", "second")[0] == 0
    status, text = named.text("tail", "--function", "uncalled")
    assert status == 2
    assert "uncalled (tail.c:6): T0 doesn't get here from its entry 0x0 start0" in text
    assert named.text("tail", "--function", "uncalled", "--assume", "reached")[0] == 0


def test_a_label_is_no_function(named: Named) -> None:
    ran = named("callee", "--function", "work_begin")
    assert ran.returncode == 2
    assert "work_begin is no function with a size" in ran.stderr


def test_an_image_of_another_executable(named: Named) -> None:
    (named.folder / "own.fpx").write_bytes((TOP / "examples/c/pid.fpx").read_bytes())
    status, text = named.text("callee", "--function", "sum_of")
    assert status == 2
    assert f"the image isn't made of {HOLDS}/callee.elf: make it again by `elf`" in text


def test_the_json_document_and_the_junit_file(named: Named) -> None:
    junit = named.folder / "budget.xml"
    words = ("--function", "sum_of", "--cycles", "500", "--json", "--junit", str(junit))
    ran = named("callee", *words)
    (result,) = json.loads(ran.stdout)["results"]
    assert {key: result[key] for key in ("verdict", "bound", "budget", "slack", "ns")} == {
        "verdict": "holds", "bound": 412, "budget": 500, "slack": 88, "ns": 4120,
    }  # fmt: skip
    assert result["loops"] == [
        {
            "at": "0x30 sum_of+0x14 (callee.c:8)", "head": 0x30, "last": 0x44, "bound": 15,
            "by": "the code counts 16 rounds",
        }
    ]  # fmt: skip
    ((properties,),) = ElementTree.parse(junit).getroot()
    found = {it.get("name"): it.get("value") or "" for it in properties}
    mtvec = "the words that set mtvec (0x10 start0+0x10 (start.s:13))"
    assert found.pop("note 1") == f"assumes no jump by a register leads between {mtvec}"
    jump = "0x64 chosen+0x18 (callee.c:13): a jump by a register"
    stack = f"assumes stack fits: whether the stack fits is unknown: {jump}"
    assert found.pop("note 2").startswith(stack)
    assert found == {"bound": "412", "budget": "500", "slack": "88", "ns": "4120"}


@pytest.mark.parametrize(
    ("words", "why"),
    [
        (("x.toml",), "BUDGETS is missing"),
        (("x.toml", "y.toml", "--function", "f"), "go with --setup"),
        (("x.elf", "--setup", "x.toml", "--function", "f"), "--setup needs --thread"),
        (("x.elf", "--setup", "x.toml", "--thread", "8", "--function", "f"), "invalid choice: 8"),
        (
            ("x.elf", "--setup", "x.toml", "--thread", "0"),
            "--setup needs --period, --function, or --from-label",
        ),
        (("x.elf", "--setup", "x.toml", "--thread", "0", "--from-label", "a"), "go together"),
        (
            ("x.elf", "y.toml", "--setup", "x.toml", "--thread", "0", "--function", "f"),
            "BUDGETS takes no thread, function",
        ),
        (
            ("x.elf", "--setup", "x.toml", "--thread", "0", "--function", "f", "--cycles", "0"),
            "is less than 1",
        ),
    ],
)
def test_words_that_do_not_go_together(tool: Tool, words: tuple[str, ...], why: str) -> None:
    ran = tool("fp_budget", *words)
    assert (ran.returncode, ran.stdout) == (2, "")
    assert why in ran.stderr


def test_a_setup_is_written_as_it_is_read(tmp_path: Path) -> None:
    for setup in sorted(TOP.glob("examples/*.toml")):
        values = read_setup(setup).values
        (tmp_path / "own.toml").write_text(toml_of(values), encoding="utf-8")
        assert read_toml(tmp_path / "own.toml")[1] == values


@pytest.mark.parametrize(
    ("pc", "target"), [(0, 4), (4, 0), (0x3FF8, 0), (0, 0x3FFC), (0x800, 0x1804)]
)
def test_the_word_of_a_call(pc: int, target: int) -> None:
    word = Word(pc, jump_and_link(pc, target))
    assert (word.target, word.comes_back) == (target, True)
