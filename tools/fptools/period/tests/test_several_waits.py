"""`fp_budget` on loops of which a round takes several waits, and on moments of which the code shows
the distance by branches and by loops that count."""
from __future__ import annotations

from pathlib import Path

import pytest
from fptools.period.tests.test_periods import LOADS, NEXT, PORT, TIME, Case, loop
from fptools.testing.common import Tool

HOLDS = "cycles (", " ns)\n"


@pytest.fixture(name="ask")
def ask_of(tool: Tool, tmp_path: Path) -> Case:
    return Case(tool, tmp_path)


def adds(ns: int) -> str:
    """The next moment, so many nanoseconds behind."""
    return NEXT if ns == 2000 else f"li x14, {ns}\n" + NEXT.replace("x12", "x14")


@pytest.mark.parametrize("work", ["", "mul x5, x5, x5\n" * 3])
def test_two_waits_of_one_distance(ask: Case, work: str) -> None:
    """The period is the largest of the two: from the second wait a jump leads back."""
    found = ask(loop(f"{NEXT}wu x11, x10\n{work}"))
    cycles = 3 + max(3 + 1 + 3, 3 + 2 * 3 * bool(work))
    assert found.text.startswith(f"holds    T0 it: {cycles} of 200"), found
    assert found.text.endswith(HOLDS[1]), found


@pytest.mark.parametrize(
    ("work", "why"),
    [
        (f"{adds(500)}wu x11, x10\n", "the moment is 500 ns behind the one before, and not 2000"),
        (f"{LOADS}add x10, x10, x16\nwu x11, x10\n", "another wait, behind that at 0x"),
        (f"{LOADS}add x11, x11, x16\nwu x11, x10\n", "another wait, behind that at 0x"),
        ("wu x11, x10\n", "the moment is 0 ns behind the one before, and not 2000 ns"),
    ],
)
def test_two_waits_that_are_no_such_distance_apart(ask: Case, work: str, why: str) -> None:
    found = ask(loop(work))
    assert found.status == 2 and found.text.startswith("UNKNOWN") and why in found.text, found


FIRST = f"li x12, 2000\n{PORT}"


@pytest.mark.parametrize(
    "first", ["li x10, 9000\nli x11, 0\n", "li x10, 9000\nwu x0, x10\nli x11, 0\n"]
)
def test_a_first_moment_that_is_a_number(ask: Case, first: str) -> None:
    found = ask(f"{FIRST}{first}head: nop\n{NEXT}here: wu x11, x10\nj head\n")
    assert found.text.startswith("holds") and found.text.endswith(HOLDS[1]), found


def test_a_first_moment_that_is_too_close_to_the_number_before(ask: Case) -> None:
    first = "li x10, 9000\nwu x0, x10\nli x10, 9010\nli x11, 0\n"
    found = ask(f"{FIRST}{first}{LOADS * 9}head: nop\nhere: wu x11, x10\n{NEXT}j head\n")
    assert found.status == 2 and "the first wait may be late: it takes up to" in found.text, found
    assert "from the moment of the wait at" in found.text


@pytest.mark.parametrize("value", [9000, 40])
def test_a_first_moment_in_memory(ask: Case, value: int) -> None:
    """What the image has there counts, as no other thread stores there."""
    memory = "lui x14, 0x20000\nlw x10, 0(x14)\nlw x11, 4(x14)\n"
    before = f"li x12, 200\n{PORT}{LOADS * 9}{memory}"
    source = f"{before}head: nop\n{NEXT}here: wu x11, x10\nj head\n"
    found = ask(f"{source}.org 0x20000000\n.word {value}\n.word 0\n", ns=200)
    assert found.status == (0 if value == 9000 else 2), found
    assert ("the first wait may be late" in found.text) == (value == 40)


ONE = "addi x11, x11, 1\non: nop\n"
CARRIES = {
    "bgeu": "add x10, x10, x12\nbgeu x10, x12, on\naddi x11, x11, 1\non: nop\n",
    "bltu": "add x10, x10, x12\nbltu x10, x12, one\non: nop\n",
    "before": f"mv x9, x10\nadd x10, x10, x12\nbgeu x10, x9, on\n{ONE}",
    "a number less": f"li x9, 1999\nadd x10, x10, x12\nbltu x9, x10, on\n{ONE}",
    "a carry": f"add x10, x10, x12\nsltu x9, x10, x12\nbeqz x9, on\n{ONE}",
}
RARE = "one: addi x11, x11, 1\nj on\n"


@pytest.mark.parametrize("name", CARRIES)
def test_a_carry_by_a_branch(ask: Case, name: str) -> None:
    found = ask(loop().replace(NEXT, CARRIES[name]) + RARE)
    assert found.text.startswith("holds") and found.text.endswith(HOLDS[1]), found


@pytest.mark.parametrize(
    "wrong",
    [
        CARRIES["bgeu"].replace("bgeu", "bltu"),
        CARRIES["bgeu"].replace("bgeu x10, x12", "bgeu x12, x10"),
        CARRIES["bgeu"].replace("addi x11, x11, 1", "addi x11, x11, 2"),
        CARRIES["bgeu"].replace("bgeu", "bge"),
        CARRIES["a number less"].replace("1999", "2000"),
        CARRIES["a carry"].replace("beqz", "bnez"),
        CARRIES["bgeu"].replace("on: nop", "on: addi x10, x10, 1"),
    ],
)
def test_a_branch_that_is_no_carry(ask: Case, wrong: str) -> None:
    found = ask(loop().replace(NEXT, wrong))
    assert found.status == 2 and found.text.startswith("UNKNOWN"), found


def nested(rounds: int, all_at_once: int, leaves: str = "", ns: int = 2000) -> str:
    """An inner loop that waits some times. Behind it all is added at once to the moment before."""
    count = f"li x20, {rounds}\n" if not leaves else ""
    more = f"li x14, {all_at_once}\nadd x21, x21, x14\nsltu x13, x21, x14\nadd x22, x22, x13\n"
    before = "mv x21, x10\nmv x22, x11\n"
    ends = leaves or "addi x20, x20, -1\nbnez x20, in\n"
    inner = f"{count}in: {NEXT}here: wu x11, x10\n{ends}"
    after = "mv x10, x21\nmv x11, x22\n" if not leaves else ""
    last = f"{NEXT}wu x11, x10\n"
    body = f"{before}{more if leaves else ''}{inner}{'' if leaves else more}{after}{last}"
    return f"li x12, {ns}\n{TIME}head: {body}j head\n"


@pytest.mark.parametrize("rounds", [1, 3, 500])
def test_a_loop_whose_moments_are_added_at_once(ask: Case, rounds: int) -> None:
    found = ask(nested(rounds, 2000 * rounds))
    assert found.text.startswith("holds") and found.text.endswith(HOLDS[1]), found
    found = ask(nested(rounds, 2000 * rounds + 2000))
    assert found.status == 2 and "the moment is 4000 ns behind the one before" in found.text, found


WORDS = "bne x10, x21, in\nbne x11, x22, in\n"


def test_a_loop_that_is_left_at_a_moment(ask: Case) -> None:
    """It compares both words of the moment."""
    outer = "mv x10, x21\nmv x11, x22\n"
    found = ask(nested(0, 6000, WORDS + outer))
    assert found.text.startswith("holds") and found.text.endswith(HOLDS[1]), found


@pytest.mark.parametrize(
    "leaves",
    [
        "bne x10, x21, in\nmv x10, x21\nmv x11, x22\n",  # the high words may differ
        "bne x11, x22, in\nmv x10, x21\nmv x11, x22\n",
        "lw x16, 0(x15)\nbnez x16, in\nmv x10, x21\nmv x11, x22\n",
    ],
)
def test_a_loop_that_is_left_elsewhere(ask: Case, leaves: str) -> None:
    found = ask(PORT + nested(0, 6000, leaves))
    assert found.status == 2 and "another wait, behind that at" in found.text, found


STORE = f"{LOADS}andi x16, x16, 12\nadd x16, x16, x14\nsw x5, 0(x16)\n"


@pytest.mark.parametrize("at", [0x2000_0010, 0x2000_0008, 0x2000_0000])
def test_a_store_in_a_range(ask: Case, at: int) -> None:
    """It leaves the moment as it is, if that isn't in the range."""
    kept = "lui x14, 0x20000\nlw x10, 0(x14)\nlw x11, 4(x14)\n"
    work = f"li x14, {at}\n{STORE}{kept}{NEXT}sw x10, 0(x14)\nsw x11, 4(x14)\n"
    first = f"{TIME}lui x14, 0x20000\nsw x10, 0(x14)\nsw x11, 4(x14)\n"
    found = ask(f"{FIRST}{first}head: nop\n{work}here: wu x11, x10\nj head\n")
    assert found.status == 0, found
    assert ("moments 2000 ns apart" in found.text) == (at == 0x2000_0000)


@pytest.mark.parametrize("first", ["bnez", "beqz"])
def test_a_round_that_takes_the_first_moment_again(ask: Case, first: str) -> None:
    """Each round begins anew with the moment of the wait: what it adds isn't added up, though a
    round without it brings back the value that the loop is entered with."""
    before, again = "mv x21, x10\nmv x22, x11\n", "mv x10, x21\nmv x11, x22\n"
    ends = f"in: beqz x20, out\naddi x20, x20, -1\n{again}{LOADS}{first} x16, in\n{NEXT}j in\n"
    source = f"{FIRST}{TIME}head: {before}li x20, 3\n{ends}out: wu x11, x10\nj head\n"
    found = ask(source, ns=6000, at="out")
    assert "moments 6000 ns apart" in found.text, found  # it is assumed, and not shown
