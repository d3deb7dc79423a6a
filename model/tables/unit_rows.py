"""units.txt and sections.txt: the answers of the units of the machine and of a tree of sections."""

from collections.abc import Callable

from model.graphs import Graph, Part
from model.images import read_image
from model.bits import nibble
from model.registers import (
    DREGIONS,
    MODES,
    PORT,
    SLOTS,
    Regions,
    frame,
    is_allowed_word,
    mode,
    pick,
    turn,
)
from model.setups import NO_SLOT, SMALL, SOFT_SLOT, THREADS, Loop
from model.tables.forms import numbers, truth

PERIOD = 10
CODE_REGIONS, DATA_REGIONS = 0xCCCCCCCC, 0xCCCCC810


def first_bad(csr: int, value: int) -> int:
    """The index of the first entry that a register may not have."""
    return next(k for k in range(8) if not is_allowed_word(csr, nibble(value, k)))


def turn_answer(slots: int, cycle: int) -> str:
    if not is_allowed_word(SLOTS, slots):
        return f"BadSlot {{ index: {first_bad(SLOTS, slots)} }}"
    entry = turn(slots, cycle)
    named = {SOFT_SLOT: "Soft", NO_SLOT: "Nobody"}.get(entry, f"Thread({entry})")
    return f"{slots:x} {len(frame(slots))} {named}"


def mode_answer(modes: int, thread: int) -> str:
    return f"{modes:x} {mode(modes, thread)}" if is_allowed_word(MODES, modes) else "BadMode"


def picks_answer(slots: int, modes: int, sleep: int) -> str:
    """The picks of eight cycles, if thread 0 sleeps until a moment."""
    last, picks = THREADS - 1, ""
    for cycle in range(8):
        picked, last = pick(slots, modes, [sleep] + [0] * 7, cycle, cycle * PERIOD, last)
        picks += "b" if picked is None else str(picked)
    return picks


def regions_answer(word: int) -> str:
    return (
        f"{word:x}"
        if is_allowed_word(DREGIONS, word)
        else f"BadRegion {{ index: {first_bad(DREGIONS, word)} }}"
    )


def access_answer(size: int, thread: int, confined: int, address: int, width: int) -> str:
    regions = Regions(CODE_REGIONS, DATA_REGIONS, size)
    load = regions.may_load(thread, bool(confined), address, width)
    fetch = address != PORT and regions.may_fetch(thread, bool(confined), address)
    return f"{truth(load)} {truth(regions.may_store(thread, address, width))} {truth(fetch)}"


ANSWERS: dict[str, Callable[..., str]] = {
    "turn": turn_answer, "mode": mode_answer, "picks": picks_answer, "regions": regions_answer, "access": access_answer,
    "time": lambda period, cycle: str(period * cycle), "moment": lambda high, low: f"{high << 32 | low:x}",
}  # fmt: skip


def unit_answer(call: str) -> str | None:
    """The answer to a call; None for one with several steps, which are worked out by hand."""
    name, _, rest = call.partition(" ")
    return ANSWERS[name](*numbers(rest)) if name in ANSWERS else None


# ---------------------------------------------------------------- the tree of a section

FILE = b"FPX1\x01\0\0\0\0\0\0\0\x14\0\0\0\x93\x82\xf2\xff\xe3\x9e\x02\xfe\x6f\0\x80\0\x67\x80\0\0\x13\0\0\0"
ROUND, OUTSIDE = Loop(0, 4, 9), Loop(16, 20, 1)


def section_answer(_: str) -> str:
    """A section's ends, its number of loops, its word at 8, and whether 12 and 16 are reached."""
    image, section = read_image(FILE, SMALL), Part(0, 20)
    graph = Graph(image.word, section, [], [OUTSIDE, ROUND])
    reached = graph.reached[section]
    head = f"Section {{ from: {section.first}, to: {section.end} }} {len(section.loops(graph.loops))} {image.word(8):x}"
    return f"{head} {truth(12 in reached)} {truth(16 in reached)}"
