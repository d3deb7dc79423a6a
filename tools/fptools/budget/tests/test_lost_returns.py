"""Jumps that lead elsewhere than the code around them says: a budget behind them is unknown, since a trap may come back."""
from __future__ import annotations

import os
from argparse import Namespace
from pathlib import Path

import pytest
from fptools.commands.fp_budget import old_comment
from fptools.files.elf import Program, ProgramError
from fptools.testing.common import TOOLS, Tool
from fptools.testing.modelled import issues_of, labels_of, make, program, setup_text

WORK = "mul x6, x6, x6\n" * 40
SECTION = f"from: nop\n{WORK}to: nop\nend: j end\n"
ARMED = "gt x11\ngth x10\naddi x11, x11, 300\nee x10, x11\n"
WAIT = "li x7, 100\nagain: addi x7, x7, -1\nbnez x7, again\nmret\n"
FAULT = ".org 0x300\nfault: j fault\n"
BACK = f".org 0x320\n{WAIT}"
SKIPS = "skips: addi x1, x1, 4\nret\n"

BY_NUMBER = (
    "li x2, 0x320\nlw x3, 0x380(x0)\nbeqz x3, first\n{}first: li x2, 0x300\nset: csrw mtvec, x2\n"
    f"{ARMED}{SECTION}{FAULT}{BACK}"
    ".org 0x380\n.word SET\n"
)
BY_CALL = (
    "li x2, 0x320\njal x1, skips\nli x2, 0x300\nset: csrw mtvec, x2\n"
    f"{ARMED}{SECTION}{SKIPS}{FAULT}{BACK}"
)
HIDDEN = (
    "lw x3, 0x380(x0)\nbeqz x3, from\nli x1, 0x200\n{}"
    f"{SECTION}.org 0x200\nli x2, 0x320\ncsrw mtvec, x2\n{ARMED}j from\n{BACK}.org 0x380\n.word 1\n"
)
IN_HANDLER = (
    f"li x2, 0x300\ncsrw mtvec, x2\n{ARMED}{SECTION}{SKIPS}"
    f".org 0x300\nfault: jal x1, skips\nj fault\n{WAIT}"
)
MOVED = "a jump by a register may lead to"
LOST = "where this leads to isn't known: if to"


def answered(tool: Tool, folder: Path, source: str, more: str = "") -> str:
    """The line of fp_budget for the section from `from` to `to`."""
    made = make(folder, source, 0, "T0 D D D D D D D" if not more else "T0 T1 D D D D D D", more)
    budgets, at = folder / "budgets.toml", made.labels
    budgets.write_text(
        f'[[budget]]\nname = "it"\nthread = 0\nfrom = {at["from"]}\nto = {at["to"]}\ncycles = 200\n'
    )
    flexpret = os.environ.get("FLEXPRET") or program(folder)
    ran = tool("fp_budget", made.setup, budgets, "--flexpret", flexpret)
    assert ran.returncode == 2, ran.stdout
    return ran.stdout


def takes_longer(source: str, bound: int, more: str = "") -> bool:
    """Whether a run of the section takes longer than a bound."""
    slots = "T0 D D D D D D D" if not more else "T0 T1 D D D D D D"
    made, at = setup_text("it.fpx", slots, more), labels_of(source)
    from model import assembler

    issues = issues_of(made, assembler.assemble(source.encode()), 1500)
    begin = next(it.cycle for it in issues if it.pc == at["from"])
    return next(it.cycle for it in issues if it.pc == at["to"]) - begin > bound


@pytest.mark.parametrize(
    "source, why",
    [
        (BY_NUMBER.format("jr x3\nnop\n"), MOVED),
        (BY_NUMBER.format("jalr x5, 0(x3)\nnop\n"), MOVED),
        (BY_NUMBER.format("csrw mepc, x3\nmret\n"), MOVED),
        (BY_NUMBER.format("mv x1, x3\nret\n"), LOST),
        (BY_NUMBER.format("addi x3, x3, 0x10\njalr x0, -16(x3)\n"), LOST),
        (BY_CALL, LOST),
        (HIDDEN.format("ret\n"), LOST),
        (HIDDEN.format("lw x1, 0x384(x0)\nret\n") + ".word 0x200\n", LOST),
        (
            HIDDEN.format("lw x4, 0x384(x0)\njr x4\n") + ".word 0x200\n",
            "jumps to an address that isn't known here",
        ),
        (IN_HANDLER, LOST),
    ],
    ids="jump link mret return computed call hidden loaded pointer handler".split(),
)
def test_a_trap_that_comes_back_by_a_jump_elsewhere(
    tool: Tool, tmp_path: Path, source: str, why: str
) -> None:
    source = source.replace("SET", str(labels_of(source.replace("SET", "0")).get("set", 0)))
    assert takes_longer(source, 200)
    found = answered(tool, tmp_path, source)
    assert found.startswith("UNKNOWN") and "no bound counts a trap handler" in found, found
    assert why in found, found


def test_an_answer_that_rests_on_the_words_before_a_write_of_mtvec(
    tool: Tool, tmp_path: Path
) -> None:
    """A jump by a register that nothing shows to lead between them: the answer says what it assumes."""
    source = f"lw x3, 0x380(x0)\nbeqz x3, first\njr x3\nfirst: lui x2, 0x0\naddi x2, x2, 0x300\nset: csrw mtvec, x2\n{SECTION}{FAULT}"
    source = source.replace("from: nop", "from: lw x4, 0x384(x0)")
    made = make(tmp_path, source, 0)
    budgets, at = tmp_path / "budgets.toml", made.labels
    flexpret = os.environ.get("FLEXPRET") or program(tmp_path)
    budget = f'[[budget]]\nname = "it"\nthread = 0\nfrom = {at["from"]}\nto = {at["to"]}\n'
    budgets.write_text(f"{budget}cycles = 200\n")
    ran = tool("fp_budget", made.setup, budgets, "--flexpret", flexpret)
    text = "assumes no jump by a register leads between the words that set mtvec"
    assert f"{text} ({at['set']:#x})" in ran.stdout + ran.stderr, ran.stdout + ran.stderr
    direct = source.replace("jr x3", "nop")
    made = make(tmp_path, direct, 0)
    ran = tool("fp_budget", made.setup, budgets, "--flexpret", flexpret)
    assert ran.returncode == 0 and text not in ran.stdout + ran.stderr, ran.stdout + ran.stderr


@pytest.mark.parametrize(
    "hides", ["li x1, 0x600\nret\n", "lw x1, 0x700(x0)\nret\n"], ids=["number", "loaded"]
)
def test_a_thread_with_a_permit_that_returns_to_a_write_of_slots(
    tool: Tool, tmp_path: Path, hides: str
) -> None:
    source = f"{SECTION}.org 0x400\n{hides}.org 0x600\nlui x6, 0xfff11\naddi x6, x6, 0x110\n"
    source += "csrw slots, x6\nstop: j stop\n.org 0x700\n.word 0x600\n"
    more = '[[thread]]\nid = 1\nmode = "hard"\nentry = 0x400\npermit = true\n'
    found = answered(tool, tmp_path, source, more)
    assert "T1 has a permit and writes slots, modes or regions" in found, found


def test_a_register_that_is_kept_in_a_stack_to_which_others_store(
    tool: Tool, tmp_path: Path
) -> None:
    """Another thread may change what the section loads: a loop's counter, or a moment."""
    source = "lui x2, 0x20001\naddi x2, x2, -2048\nfrom: addi x2, x2, -16\nsw x8, 0(x2)\n"
    source += "lw x8, 0(x2)\naddi x2, x2, 16\nto: nop\nend: j end\n"
    made = make(tmp_path, source, 0)
    made.setup.write_text(
        made.setup.read_text()
        .replace('d_regions = ["T0"', 'd_regions = ["shared"')
        .replace("confined = true", "confined = false")
    )
    budgets, at = tmp_path / "budgets.toml", made.labels
    budget = f'[[budget]]\nname = "it"\nthread = 0\nfrom = {at["from"]}\nto = {at["to"]}\n'
    flexpret = os.environ.get("FLEXPRET") or program(tmp_path)
    for more, status in (("", 2), ('assume = ["stack fits"]\n', 0)):
        budgets.write_text(f"{budget}cycles = 200\n{more}")
        ran = tool("fp_budget", made.setup, budgets, "--flexpret", flexpret)
        assert ran.returncode == status, ran.stdout
        assert "in a shared region: other threads may store there" in ran.stdout + ran.stderr


def test_lines_that_no_package_reads(monkeypatch: pytest.MonkeyPatch) -> None:
    """As those of clang with -g and an older pyelftools: the answer stays, and is no traceback."""

    def fails(_: Program) -> None:
        raise ProgramError("has line tables that pyelftools can't read")

    monkeypatch.setattr(Program, "all_lines", property(fails))
    asked = Namespace(setup=None, elf=TOOLS / "fptools/testing/calls.elf", src=None)
    assert old_comment(asked) == ""
