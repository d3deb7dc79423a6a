"""A setup with its image as the driver of rtl/ reads it: a key and three numbers in each line."""

from typing import Iterator, Mapping, Sequence

from fptools.files.setup import Setup, ThreadTable
from fptools.limits import DATA_START

MODES = ("hard", "hard-asleep", "soft", "soft-asleep")
"""The modes of a thread, by their codes in `modes`."""

CODES = {"S": 14, "D": 15, "shared": 8, "readonly": 12, **{f"T{k}": k for k in range(8)}}
"""The nibbles of `slots` and of the region registers."""

THREADS = range(8)
Line = tuple[str, int, int, int]


def loaded(setup: Setup, words: Mapping[int, int]) -> str:
    """The text for a setup that the program takes, and the words of its image by address. The
    numbers are hexadecimal."""
    lines = [*_registers(setup), *(it for thread in setup.threads for it in _thread(thread))]
    lines += [("word", at // DATA_START, at % DATA_START // 4, word) for at, word in words.items()]
    return "".join(f"{key} {a:x} {b:x} {c:x}\n" for key, a, b, c in lines)


def _registers(setup: Setup) -> Iterator[Line]:
    """What belongs to no thread, and what all threads share."""
    yield "version", setup.values.get("version", 1), 0, 0
    yield "period", setup.period, 0, 0
    yield "slots", _nibbles(setup.slots), 0, 0
    yield "iregions", _nibbles(setup.values["i_regions"]), 0, 0
    yield "dregions", _nibbles(setup.values["d_regions"]), 0, 0
    tables = {thread.id: thread for thread in setup.threads}
    modes = [MODES.index(tables[k].mode if k in tables else "soft-asleep") for k in THREADS]
    yield "modes", sum(mode << 2 * k for k, mode in enumerate(modes)), 0, 0
    yield "confined", sum(1 << it.id for it in setup.threads if it.confined), 0, 0
    yield "permit", sum(1 << it.id for it in setup.threads if it.permit), 0, 0


def _thread(thread: ThreadTable) -> Iterator[Line]:
    yield "entry", thread.id, thread.entry, 0
    if thread.unplug is not None:
        yield "unplug", thread.id, thread.unplug, 0
    for cycle, word in thread.inputs:
        yield "input", thread.id, cycle, word


def _nibbles(names: Sequence[str]) -> int:
    return sum(CODES[name] << 4 * k for k, name in enumerate(names))
