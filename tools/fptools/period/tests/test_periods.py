"""`fp_budget` on the period of a loop that waits: what it says, and what it must not say."""
from __future__ import annotations

import json
import os
from dataclasses import dataclass
from pathlib import Path

import pytest
from fptools.testing.common import Tool
from fptools.code.thread import Code, ThreadCode
from fptools.isa.words import ECALL, MRET
from fptools.testing.modelled import labels_of, make, program

TIME = "gt x10\ngth x11\n"
NEXT = "add x10, x10, x12\nsltu x13, x10, x12\nadd x11, x11, x13\n"
LOADS = "lw x16, 0(x15)\n"
PORT = "lui x15, 0x40000\n"
ALL_SLOTS = "T0 D D D D D D D"


def loop(work: str = "", before: str = "", first: str = "", ns: int = 2000) -> str:
    """A program whose loop waits each so many nanoseconds, at its end."""
    return f"{before}li x12, {ns}\n{PORT}{TIME}{first}head: nop\n{work}{NEXT}here: wu x11, x10\nj head\n"


@dataclass
class Asked:
    """The answer of fp_budget: its status, its line, and standard error."""

    status: int
    text: str
    notes: str


class Case:
    """Asks for the period of the loop around the label `here`."""

    def __init__(self, tool: Tool, folder: Path) -> None:
        self.tool, self.folder = tool, folder
        self.flexpret = os.environ.get("FLEXPRET") or program(folder)

    def __call__(
        self, source: str, ns: int | None = 2000, slots: str = ALL_SLOTS, assume: str = "", more: str = "",
        words: tuple[object, ...] = (), at: str = "here",
    ) -> Asked:  # fmt: skip
        made = make(self.folder, source, 0, slots, more)
        budgets = self.folder / "budgets.toml"
        budgets.write_text(
            f'[[budget]]\nname = "it"\nthread = 0\nperiod = {labels_of(source)[at]}\nns = {ns}\n'
            + (f'assume = ["{assume}"]\n' if assume else "")
        )
        ran = self.tool("fp_budget", made.setup, budgets, "--flexpret", self.flexpret, *words)
        return Asked(ran.returncode, ran.stdout, ran.stderr)


@pytest.fixture
def case(tool: Tool, tmp_path: Path) -> Case:
    return Case(tool, tmp_path)


def test_a_loop_that_waits_at_its_end(case: Case) -> None:
    """From a wait to the jump 3 cycles, to the head 3, and 4 words of 1 cycle."""
    assert case(loop()).text == "holds    T0 it: 10 of 200 cycles (100 ns)\n"


@pytest.mark.parametrize(
    ("source", "cycles"),
    [
        (f"li x12, 2000\n{TIME}head: {NEXT}here: wu x11, x10\nmul x5, x5, x5\nj head\n", 11),  # at its start
        (f"li x12, 2000\n{TIME}head: mul x5, x5, x5\n{NEXT}here: wu x11, x10\nmul x5, x5, x5\nj head\n", 13),
        # A rare case behind the jump: the path through it is the longest.
        (f"li x12, 2000\n{PORT}{TIME}head: lw x5, 0(x15)\nbeq x5, x0, rare\non: {NEXT}here: wu x11, x10\nj head\n"
         "rare: div x6, x6, x5\nj on\n", None),
        # One of two waits in a round.
        (f"li x12, 2000\n{PORT}{TIME}head: {NEXT}lw x5, 0(x15)\nbeq x5, x0, other\nhere: wu x11, x10\nj head\n"
         "other: wu x11, x10\nmul x5, x5, x5\nj head\n", 16),
        # An inner loop whose rounds the code counts.
        (f"li x12, 2000\n{TIME}head: li x5, 8\nin: addi x5, x5, -1\nbnez x5, in\n{NEXT}here: wu x11, x10\nj head\n", 40),
        # The wait is in an inner loop.
        (f"li x12, 2000\n{TIME}head: li x5, 8\nin: {NEXT}here: wu x11, x10\naddi x5, x5, -1\nbnez x5, in\nj head\n", 12),
    ],
)  # fmt: skip
def test_shapes(case: Case, source: str, cycles: int | None) -> None:
    found = case(source)
    assert found.status == 0 and found.text.startswith("holds"), found
    if cycles is not None:
        assert f": {cycles} of 200 cycles" in found.text


@pytest.mark.parametrize(
    ("slots", "cycles"),
    [("T0 S D D D D D D", 16), ("T0 S S S D D D D", 24), ("T0 T0 S S S D D D", 20)],
)
def test_frames(case: Case, slots: str, cycles: int) -> None:
    assert f": {cycles} of 200 cycles" in case(loop(), slots=slots).text


def test_over(case: Case) -> None:
    found = case(loop(ns=90), ns=90)
    assert (found.status, found.text) == (1, "OVER     T0 it: 10 of 9 cycles (100 ns)\n")


@pytest.mark.parametrize(
    ("source", "why"),
    [
        (loop().replace("2000", "1990"), "the moment is 1990 ns behind the one before, and not 2000 ns"),
        (loop().replace("add x11, x11, x13\n", ""), "lacks the carry of the low word"),
        (loop().replace("sltu x13, x10, x12\n", "sltu x13, x12, x10\n"), "with the carry of the low word"),
        (loop().replace("here:", "add x11, x11, x13\nhere:"), "with the carry of the low word"),
        (loop().replace("wu x11", "wu x0"), "the high word of the moment is a number"),
        (loop().replace("wu x11, x10", "wu x10, x10"), "both words of the moment are the same"),
        (loop().replace("wu x11, x10", "wu x0, x0"), "the moment is the same each time"),
        (f"{PORT}li x10, 5000\nhead: lw x5, 0(x15)\nhere: wu x0, x10\nj head\n", "the moment is the same each time"),
        (loop(work="li x9, 1\nadd x12, x12, x9\n"), None),
        (loop(work=f"lw x5, 0(x15)\nbeq x5, x0, on\n{NEXT}on: nop\n"), None),
    ],
)  # fmt: skip
def test_moments_that_are_no_such_distance_apart(case: Case, source: str, why: str | None) -> None:
    """A distance that the code shows to be another one is unknown; one that it doesn't show is
    assumed."""
    found = case(source)
    if why is None:
        assert "assumes" in found.text and "moments 2000 ns apart" in found.text, found
        assert "the low word of the moment isn't the one before plus a number" in found.notes
    else:
        assert found.status == 2 and found.text.startswith("UNKNOWN") and why in found.text, found


def test_a_second_loop_that_is_entered_at_two_words(case: Case) -> None:
    """Its waits are late, and it is no natural loop: the answer for the first loop isn't the
    thread's."""
    late = (
        f"two: {NEXT}wu x11, x10\nnop\nmid: li x5, 300\nin: addi x5, x5, -1\nbnez x5, in\nj two\n"
    )
    leaves = "lw x5, 0(x15)\nbeq x5, x0, head\nlw x6, 0(x15)\nbeq x6, x5, mid\n"
    found = case(loop().replace("j head\n", leaves) + late)
    assert found.status == 2 and "is entered at several words" in found.text, found


def test_moments_of_a_reading_in_the_loop_drift(case: Case) -> None:
    source = f"li x12, 2000\nhead: nop\n{TIME}{NEXT}here: wu x11, x10\nj head\n"
    assert "the moments drift: 2000 ns behind the reading of the time at 0x8" in case(source).text


def test_the_latch_is_of_the_last_reading(case: Case) -> None:
    """GTH before GT has the high word of another reading."""
    source = f"li x12, 2000\nhead: nop\ngth x11\ngt x10\n{NEXT}here: wu x11, x10\nj head\n"
    found = case(source)
    assert "drift" not in found.text and found.status == 2
    assert "the high word of the moment isn't the one before" in found.text


HANDLER = "la x1, hand\ncsrw mtvec, x1\n"
COMES_BACK = "li x22, 45\nmore: addi x22, x22, -1\nbnez x22, more\n"


@pytest.mark.parametrize(
    ("source", "to"),
    [
        (loop("lw x16, 1(x15)\n", HANDLER), "head"),
        (f"{HANDLER}li x12, 2000\n{PORT}{TIME}head: {NEXT}here: wu x11, x10\nbehind: lh x16, 1(x15)\nj head\n", "behind"),
        (loop("lw x16, 1(x15)\n", HANDLER), "here"),
        (loop(f"ee x11, x14\n{LOADS * 9}de\n", HANDLER), "head"),
        (loop("csrw slots, x5\n", HANDLER), "head"),
        (loop("la x1, second\ncsrw mtvec, x1\nlw x16, 1(x15)\n", HANDLER) + "second: j head\n", "hand"),
        (loop("lw x16, 1(x15)\n", HANDLER), "start"),
    ],
)  # fmt: skip
def test_a_trap_that_comes_back(case: Case, source: str, to: str) -> None:
    source = f"start: {source}.org 0x400\nhand: {COMES_BACK}j {to}\n"
    found = case(source)
    assert (
        found.status == 2 and "the trap handler at 0x" in found.text and "leads here" in found.text
    ), found
    found = case(source, assume="no traps")
    assert "assumes no trap" in found.text


@pytest.mark.parametrize("end", ["mret", "jr x5", "ret"])
def test_a_handler_that_goes_on_elsewhere(case: Case, end: str) -> None:
    found = case(loop("lw x16, 1(x15)\n", HANDLER) + f".org 0x400\nhand: {end}\n")
    assert found.status == 2, found


def test_a_handler_that_stands_still(case: Case) -> None:
    found = case(loop("lw x16, 1(x15)\n", HANDLER) + ".org 0x400\nhand: j hand\n")
    assert found.status == 0 and found.text.endswith("; assumes no trap\n"), found


def test_a_trap_without_a_handler_is_assumed_away(case: Case) -> None:
    found = case(loop(LOADS))
    assert found.text.endswith("; assumes no trap\n") and "nothing sets mtvec" in found.notes


@pytest.mark.parametrize(
    ("source", "why"),
    [
        # The wait before the loop is late.
        (f"li x12, 570\n{PORT}{TIME}{LOADS * 62}add x10, x10, x12\nwu x11, x10\n"
         f"head: {NEXT}here: wu x11, x10\n{LOADS * 20}j head\n", "the first wait may be late"),
        # Another reading of the time comes later; the moments are of the first one.
        (f"li x12, 570\n{PORT}{TIME}{LOADS * 62}gt x20\nhead: {NEXT}here: wu x11, x10\n{LOADS * 20}j head\n",
         "the first wait may be late"),
        # The first moment is a number.
        (f"li x12, 570\n{PORT}li x10, 100\n{LOADS * 62}head: {NEXT}here: wu x11, x10\nj head\n",
         "the first wait may be late"),
        # A loop before it is late at each of its waits.
        (f"li x12, 570\nli x5, 40\n{PORT}{TIME}pre: {NEXT}wu x11, x10\n{LOADS * 40}addi x5, x5, -1\nbnez x5, pre\n"
         f"head: {NEXT}here: wu x11, x10\n{LOADS * 20}j head\n", "the first wait may be late"),
    ],
)  # fmt: skip
def test_a_first_wait_that_may_be_late(case: Case, source: str, why: str) -> None:
    found = case(source, ns=570)
    assert found.status == 2 and why in found.text, found


def test_a_first_wait_that_is_not_known(case: Case) -> None:
    found = case(loop(first=f"{LOADS}add x10, x10, x16\n"))
    assert (
        found.status == 0 and "assumes" in found.text and "the first wait in time" in found.text
    ), found


@pytest.mark.parametrize(
    ("source", "why"),
    [
        (loop("du x11, x10\n"), "a DU on the path"),
        (loop(f"{NEXT}wu x11, x10\n{LOADS}add x10, x10, x16\n"), "another wait, behind that at"),
        (
            loop("lw x5, 0(x15)\nbeq x5, x0, head\n"),
            "a round from here may come back without a wait",
        ),
        (
            loop("lw x5, 0(x15)\nbeq x5, x0, away\n") + "away: j away\n",
            "from here on no wait is reached",
        ),
        (loop("lw x5, 0(x15)\nbeq x5, x0, away\n") + "away: ecall\n", "it traps"),
        (loop("in: lw x5, 0(x15)\nbeq x5, x0, in\n"), "nothing bounds this loop"),
        (loop("lw x5, 0(x15)\njr x5\n"), "a jump to an address that isn't known"),
        (loop(before="lw x5, 0(x15)\njr x5\n"), "a jump to an address that isn't known"),
        (
            loop("jal x5, sub\n") + "sub: j sub\n",
            "a call that doesn't keep its return address in x1",
        ),
        (loop("jal x1, sub\n") + "sub: ret\n", "no function with a size"),
        ("here: j here\n", "no WU is reached from the entry"),
        (f"{TIME}here: wu x11, x10\nend: j end\n", "no WU is reached again and again"),
    ],
)
def test_unknown(case: Case, source: str, why: str) -> None:
    found = case(source)
    assert found.status == 2 and found.text.startswith("UNKNOWN") and why in found.text, found


def test_a_thread_that_is_not_hard(case: Case) -> None:
    assert (
        case(loop(), more="[[thread]]\nid = 1\nmode = 'soft'\nentry = 0\npermit = true\n").status
        == 0
    )
    permit = loop() + ".org 0x400\nother: csrw slots, x5\nj other\n"
    found = case(permit, more="[[thread]]\nid = 1\nmode = 'soft'\nentry = 0x400\npermit = true\n")
    assert found.status == 2 and "writes slots, modes or regions" in found.text, found


@pytest.mark.parametrize(
    "other",
    [
        # mtvec is 0 at the start, so a trap goes to address 0.
        "ecall\n",
        "lw x6, 1(x0)\nj other\n",
        # mtvec is set to an address that isn't known.
        "lw x6, 0(x6)\ncsrw mtvec, x6\necall\n",
        "li x6, 4\ncsrrs x0, mtvec, x6\necall\n",
    ],
)
def test_a_thread_with_a_permit_whose_trap_handler_writes_slots(case: Case, other: str) -> None:
    """Thread 0 finds 0 in x5, thread 1 sets it."""
    write = "beq x5, x0, start\nwrite: lui x6, 0x11111\ncsrw slots, x6\nstop: j stop\n"
    source = f"{write}start: {loop()}"
    more = "[[thread]]\nid = 1\nmode = 'hard'\nentry = 0x400\npermit = true\n"
    found = case(f"{source}.org 0x400\nli x5, 1\nother: {other}", more=more)
    assert found.status == 2, found
    assert "T1 has a permit and writes slots, modes or regions" in found.text


def test_an_expiry_that_a_handler_at_address_0_arms() -> None:
    """A trap that is meant goes there while nothing has set mtvec."""
    handler = {0: 0x0000_400B, 4: MRET}  # ee x0, x0
    assert ThreadCode(Code({**handler, 0x100: ECALL, 0x104: 0x6F}), 0x100).expiry is not None
    load = 0x0000_2283  # lw x5, 0(x0)
    assert ThreadCode(Code({**handler, 0x100: load, 0x104: 0x6F}), 0x100).expiry is None
    set_first = {0x100: 0x0400_0293, 0x104: 0x3052_9073, 0x108: ECALL, 0x40: 0x6F}  # to 0x40
    assert ThreadCode(Code({**handler, **set_first}), 0x100).expiry is None


def test_runs(case: Case) -> None:
    found = case(loop(), words=("--runs", 3000))
    assert found.text.endswith("; the longest of 14 periods takes 7, no wait is late\n"), found


def test_a_run_that_is_late_is_over(case: Case) -> None:
    """The first wait is late by an input, which the bound assumes away; nothing catches it up."""
    first = "slli x16, x16, 6\nsub x10, x10, x16\n"
    source = loop(before=f"{PORT}{LOADS * 20}", first=first, ns=100)
    found = case(source, ns=100, words=("--runs", 3000))
    assert found.status == 1 and "waits of a run are late, the first in cycle" in found.text, found


def test_a_run_with_a_trap_is_unknown(case: Case) -> None:
    found = case(
        loop("lh x16, 1(x15)\n", HANDLER) + ".org 0x400\nhand: j hand\n", words=("--runs", 3000)
    )
    assert found.status == 2 and "a trap in cycle" in found.text, found


def test_json_and_junit(case: Case) -> None:
    found = case(loop(), words=("--json", "--junit", case.folder / "it.xml"))
    (result,) = json.loads(found.text)["results"]
    assert (result["verdict"], result["bound"], result["budget"], result["slack"]) == (
        "holds",
        10,
        200,
        190,
    )
    assert '<property name="bound" value="10"' in (case.folder / "it.xml").read_text()


@pytest.mark.parametrize("more", ["to = 8", "cycles = 8", "calls = true"])
def test_a_period_has_no_section(case: Case, more: str) -> None:
    made = make(case.folder, loop(), 0, ALL_SLOTS)
    budgets = case.folder / "budgets.toml"
    budgets.write_text(f'[[budget]]\nname = "it"\nthread = 0\nperiod = 0\nns = 2000\n{more}\n')
    ran = case.tool("fp_budget", made.setup, budgets, "--flexpret", case.flexpret)
    assert ran.returncode == 2 and ran.stdout == "" and len(ran.stderr.splitlines()) == 1, ran


@pytest.mark.parametrize(
    "words", [("--cycles", 5), ("--from-label", "a", "--to-label", "b"), ("--ns", 0)]
)
def test_usage(tool: Tool, words: tuple[object, ...]) -> None:
    ran = tool("fp_budget", "x.elf", "--setup", "x.toml", "--thread", 0, "--period", *words)
    assert ran.returncode == 2 and ran.stdout == "" and "error:" in ran.stderr
