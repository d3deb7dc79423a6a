"""Words and instructions, and their results at the edges."""
from __future__ import annotations

import random

import pytest

from model.graphs import edges
from model.instructions import ROWS, Ins, decode, encode, lag, outcome
from model.bits import word


def some_words(count: int) -> list[int]:
    chance = random.Random(5)
    return [chance.getrandbits(25) << 7 | chance.choice(list(ROWS)) for _ in range(count)]


def test_each_word_is_encoded_back() -> None:
    for value in some_words(20_000):
        assert encode(decode(value)) == value


def test_edges_have_the_lags_of_instructions() -> None:
    for value in some_words(20_000):
        x, found = decode(value), edges(value, 0x100)
        onward = [edge.lag for edge in found if edge.to == 0x104]
        if found and x.kind not in ("Jal", "Branch"):
            assert onward == [lag(x, False, False)]
        if x.kind in ("Jal", "Branch") and word(0x100 + x.imm) % 4 == 0:
            assert found[-1].lag == lag(x, True, False) == 3


@pytest.mark.parametrize(
    ("op", "a", "b", "value"),
    [
        ("Div", 7, 0, 0xFFFFFFFF), ("Rem", 7, 0, 7), ("Div", 0x80000000, 0xFFFFFFFF, 0x80000000),
        ("Rem", 0x80000000, 0xFFFFFFFF, 0), ("Div", word(-7), 2, word(-3)), ("Rem", word(-7), 2, word(-1)),
        ("Mulh", word(-1), word(-1), 0), ("Mulhsu", word(-1), word(-1), word(-1)), ("Mulhu", word(-1), word(-1),
        word(-2)),
    ],
)  # fmt: skip
def test_products(op: str, a: int, b: int, value: int) -> None:
    assert outcome(Ins("Muldiv", op), 0, a, b).value == value
