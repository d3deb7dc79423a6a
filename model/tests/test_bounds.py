"""Bounds by costs between positions and by all paths, over drawn sections and worked ones."""
from __future__ import annotations

from random import Random

from hypothesis import given, settings
from hypothesis import strategies as st

from model.bounds import Bounds
from model.commands import answer
from model.drawn.code import addi, branch, jal, jalr
from model.drawn.sections import Section
from model.graphs import Graph, Part
from model.instructions import Ins, encode
from model.setups import Loop
from model.walks import Walks

T0, T0_TO_T3 = 0xFFFFFFF0, 0xFFFF3210
MOST_PLACES = 20_000

ROUND = [addi(5, 5, 1), branch("Bne", 5, 0, -4)]


def bound(code: list[Ins], loops: list[Loop], slots: int = T0) -> int:
    """The bound of the whole code, by both methods."""
    words = dict(zip(range(0, 4 * len(code), 4), map(encode, code)))
    graph = Graph(lambda address: words.get(address, 0), Part(0, 4 * len(code)), [], loops)
    assert graph.refusal() is None
    cost = Bounds(graph, slots, 0).largest_cost()
    assert Walks(graph, slots, 0).largest_cost(MOST_PLACES) == cost
    return cost


def test_ten_rounds() -> None:
    assert bound(ROUND, [Loop(0, 4, 9)]) == 38
    assert bound(ROUND, [Loop(0, 4, 9)], T0_TO_T3) == 80


def test_a_section_is_left_in_the_middle_of_a_round() -> None:
    code = [branch("Bne", 5, 0, 12), addi(5, 5, 1), branch("Bne", 5, 0, -8)]
    assert bound(code, [Loop(0, 8, 2)]) == 2 * 5 + 3


def test_an_inner_loop_begins_anew_in_each_round() -> None:
    code = [addi(6, 6, 1), *ROUND, branch("Bne", 5, 0, -12)]
    assert bound(code, [Loop(0, 12, 1), Loop(4, 8, 1)]) == 2 * (1 + 4 + 2) + 3 + 1


def test_an_empty_walk_costs_nothing() -> None:
    assert bound([jal(0, 0)], [Loop(0, 0, 0)]) == 0


@settings(max_examples=60)
@given(st.randoms(use_true_random=False))
def test_both_ways_agree_on_drawn_sections(chance: Random) -> None:
    section = Section(chance, most_rounds=3)
    graph = section.graph()
    if graph.refusal() is None:
        cost = Bounds(graph, section.slots, section.thread).largest_cost()
        assert Walks(graph, section.slots, section.thread).largest_cost(MOST_PLACES) == cost


def test_a_call() -> None:
    setup = (
        'period = 10\nimage = "a.fpx"\nslots = ["T0", "D", "D", "D", "D", "D", "D", "D"]\n'
        'i_regions = ["T0", "T0", "T0", "T0", "T0", "T0", "T0", "T0"]\n'
        'd_regions = ["T0", "T0", "T0", "T0", "T0", "T0", "T0", "T0"]\n[[thread]]\nid = 0\nmode = "hard"\nentry = 0\n'
    )
    code = (
        [jal(1, 0x100), addi(5, 5, 1), jal(1, 0xF8)]
        + [addi(0, 0, 0)] * 61
        + [addi(7, 7, 1), jalr(0, 1, 0)]
    )
    data = b"".join(encode(x).to_bytes(4, "little") for x in code)
    image = b"FPX1" + (1).to_bytes(4, "little") + bytes(4) + len(data).to_bytes(4, "little") + data
    files = {
        "a.toml": setup.encode(),
        "a.fpx": image,
        "r": b"00000100 00000104\n",
        "s": b"00000100 00000100\n",
    }
    words = "calls a.toml --thread 0 --from 0 --to 12 --routines".split()
    assert answer([*words, "r"], files) == (0, b"bound 15\n")
    assert answer([*words, "s"], files) == (6, b"refused bound 10 Escape 00000100\n")
