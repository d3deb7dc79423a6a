"""How often loops go back that count, and forms of loops that don't count."""
from __future__ import annotations

import pytest
from fptools.flow.counts import count_of_straight, jumps_of, takes
from fptools.isa.words import Flow, Word
from hypothesis import given
from hypothesis import strategies as st

NOP = 0x13


def addi(rd: int, rs1: int, number: int) -> int:
    return (number & 0xFFF) << 20 | rs1 << 15 | rd << 7 | 0x13


def branch(funct3: int, rs1: int, rs2: int, offset: int) -> int:
    low, high = offset >> 1 & 0xF, offset >> 5 & 0x3F
    return (
        (offset >> 12 & 1) << 31 | high << 25 | rs2 << 20 | rs1 << 15
        | funct3 << 12 | low << 8 | (offset >> 11 & 1) << 7 | 0x63
    )  # fmt: skip


BEQ, BNE, BLT, BLTU = 0, 1, 4, 6


@pytest.mark.parametrize(
    ("before", "body", "back", "rounds"),
    [
        ([addi(1, 0, 8)], [addi(1, 1, -1)], (BNE, 1, 0), 8),
        ([addi(1, 0, 8)], [addi(1, 1, -1)], (BNE, 0, 1), 8),
        ([addi(2, 1, 32)], [NOP, addi(1, 1, 4), NOP], (BNE, 1, 2), 8),  # a pointer and its end
        ([addi(1, 0, 0), addi(2, 0, 10)], [addi(1, 1, 3)], (BLT, 1, 2), 4),
        (
            [addi(1, 0, 10), addi(2, 0, 0)],
            [addi(1, 1, 3)],
            (BLT, 1, 2),
            1,
        ),  # the first round is made in any case
        (
            [addi(1, 0, -5), addi(2, 0, 10)],
            [addi(1, 1, 1)],
            (BLTU, 1, 2),
            1,
        ),  # -5 is large without a sign
        ([addi(2, 1, -4)], [addi(1, 1, 1)], (BLT, 1, 2), None),  # what isn't known may wrap
        ([addi(2, 1, 8)], [addi(1, 1, 4)], (BLTU, 1, 2), 2),
        (
            [addi(2, 1, 8), addi(1, 1, 32)],
            [addi(1, 1, 4)],
            (BLTU, 1, 2),
            None,
        ),  # beyond its limit, it may wrap
        ([addi(2, 1, 0)], [addi(1, 1, 4)], (BLTU, 1, 2), None),
        ([addi(1, 0, 8)], [addi(1, 1, -3)], (BNE, 1, 0), None),  # it passes its limit
        ([addi(1, 0, 8)], [addi(1, 1, 1)], (BNE, 1, 0), None),  # it goes away from its limit
        (
            [addi(1, 0, 0), addi(2, 0, 8)],
            [addi(1, 1, 1), addi(2, 2, 1)],
            (BNE, 1, 2),
            None,
        ),  # the limit moves
        ([addi(1, 0, 8)], [addi(1, 1, -1), addi(1, 1, -1)], (BNE, 1, 0), 4),  # two steps
        ([addi(1, 0, 8)], [addi(1, 2, -1)], (BNE, 1, 0), None),  # no step of its own
        (
            [addi(1, 0, 8)],
            [branch(BEQ, 3, 4, 8), addi(1, 1, -1)],
            (BNE, 1, 0),
            None,
        ),  # a step that may be left out
        (
            [addi(3, 1, 0)],
            [addi(2, 3, 32), addi(1, 1, 4)],
            (BNE, 1, 2),
            8,
        ),  # each round sets its end
        ([], [addi(2, 1, 32), addi(1, 1, 4)], (BNE, 1, 2), None),  # an end that moves with it
        ([addi(3, 1, 0)], [addi(2, 3, 32), addi(3, 3, 4), addi(1, 1, 4)], (BNE, 1, 2), None),
        ([addi(2, 0, 8)], [addi(1, 1, -1)], (BNE, 1, 0), None),  # nothing sets the counter
        ([addi(1, 0, 8)], [addi(1, 1, -1)], (BEQ, 1, 0), 1),  # it goes on at its limit alone
    ],
)
def test_loops(
    before: list[int], body: list[int], back: tuple[int, int, int], rounds: int | None
) -> None:
    head, last = 4 * len(before), 4 * len(before + body)
    code = [*before, *body, branch(*back, head - last)]
    words = {4 * at: word for at, word in enumerate(code)}
    count = count_of_straight(words, jumps_of(words), head, last)
    assert (None if count is None else count.backs + 1) == rounds
    assert count is None or count.is_exact


def test_a_jump_between_the_numbers_and_the_loop() -> None:
    code = [addi(1, 0, 8), NOP, addi(1, 1, -1), branch(BNE, 1, 0, -4), branch(BEQ, 0, 0, -12)]
    words = {4 * at: word for at, word in enumerate(code)}
    assert count_of_straight(words, jumps_of(words), 8, 12) is None
    words[16] = NOP
    count = count_of_straight(words, jumps_of(words), 8, 12)
    assert count is not None and count.backs == 7


BGE, BGEU = 5, 7


@pytest.mark.parametrize(
    ("before", "body", "back", "backs"),
    [
        ([addi(1, 0, 8)], [addi(1, 1, -1)], (BGE, 1, 0), 8),  # down to 0, and one below
        ([addi(1, 0, 5), addi(2, 0, 9)], [addi(1, 1, -1)], (BLTU, 1, 2), 5),  # until it wraps
        (
            [addi(1, 0, 0), addi(2, 0, 10)],
            [addi(1, 1, 3)],
            (BGE, 2, 1),
            3,
        ),  # 3, 6, 9 are at most 10
        (
            [addi(1, 0, 0), addi(2, 0, 10)],
            [addi(1, 1, 1), addi(2, 2, -1)],
            (BLT, 1, 2),
            4,
        ),  # both move
        ([addi(1, 0, 8)], [addi(1, 1, -1)] * 4, (BNE, 1, 0), 1),  # unrolled by four
        (
            [addi(1, 0, 1), addi(2, 0, 0)],
            [addi(1, 1, 2)],
            (BNE, 1, 2),
            None,
        ),  # odd numbers pass 0 forever
        (
            [addi(1, 0, 0), addi(2, 0, -1)],
            [addi(1, 1, 1)],
            (BLTU, 1, 2),
            None,
        ),  # four thousand million rounds
        (
            [addi(2, 1, 32)],
            [addi(1, 1, 8), NOP, addi(1, 1, 8)],
            (BLTU, 1, 2),
            1,
        ),  # to an address that isn't known
        ([addi(2, 1, 24)], [addi(1, 1, 16)], (BNE, 1, 2), None),  # it passes the address
        ([addi(1, 0, 16), addi(2, 0, 4)], [addi(1, 1, -2)], (BGEU, 1, 2), 6),
    ],
)
def test_all_comparisons(
    before: list[int], body: list[int], back: tuple[int, int, int], backs: int | None
) -> None:
    head, last = 4 * len(before), 4 * len(before + body)
    code = [*before, *body, branch(*back, head - last)]
    words = {4 * at: word for at, word in enumerate(code)}
    count = count_of_straight(words, jumps_of(words), head, last)
    assert (None if count is None else count.backs) == backs
    assert count is None or count.backs == by_running(words, head, last)


def by_running(words: dict[int, int], head: int, last: int) -> int:
    """How often a run goes back to the head."""
    registers = dict.fromkeys(range(32), 0) | {1: 0x1000}
    pc, backs = 0, 0
    while pc <= last:
        word = Word(pc, words[pc])
        if word.flow is Flow.BRANCH:
            is_taken = takes(word.funct3, registers[word.rs1], registers[word.rs2])
            backs += is_taken
            pc = word.target if is_taken and word.target is not None else word.next
        else:
            registers[word.rd] = (registers[word.rs1] + word.immediate) % 2**32 if word.rd else 0
            pc = word.next
    return backs


@given(
    funct3=st.sampled_from((0, 1, 4, 5, 6, 7)),
    first=st.integers(-40, 40),
    end=st.integers(-40, 40),
    steps=st.lists(st.integers(-5, 5), min_size=1, max_size=3),
    limit_step=st.integers(-2, 2),
    is_turned=st.booleans(),
)
def test_counts_are_those_of_a_run(
    funct3: int, first: int, end: int, steps: list[int], limit_step: int, is_turned: bool
) -> None:
    before = [addi(1, 0, first), addi(2, 0, end)]
    body = [*(addi(1, 1, step) for step in steps), addi(2, 2, limit_step)]
    head, last = 8, 8 + 4 * len(body)
    sides = (2, 1) if is_turned else (1, 2)
    code = [*before, *body, branch(funct3, *sides, head - last)]
    words = {4 * at: word for at, word in enumerate(code)}
    count = count_of_straight(words, jumps_of(words), head, last)
    if count is not None and count.backs < 10_000:
        assert count.is_exact and count.backs == by_running(words, head, last)
