"""Setup files: the setup of a file, or its first fault in the order of the checks."""
from __future__ import annotations

import tomllib
from collections.abc import Mapping, Sequence
from dataclasses import dataclass, field
from typing import Any

from model.bits import LAST_WORD, nibbles_word
from model.refusals import LOOP_KEYS, THREAD_KEYS, TOP_KEYS, SetupNo

MOST_BYTES = 262_144
MOST_CYCLES = 4_000_000_000
MOST_PERIOD = 1000
MOST_NAME = 255
MOST_INPUTS = 4096
MOST_LOOPS = 256
MOST_ROUNDS = 1_048_576
MOST_DEPTH = 80
"""Lists may nest so deep."""

THREADS = 8

SMALL, LARGE = 16_384, 65_536
SIZES = {1: SMALL, 2: LARGE}
"""The bytes of a scratchpad, by the setup's version."""

HARD, HARD_ASLEEP, SOFT, SOFT_ASLEEP = range(4)
MODES = {"hard": HARD, "hard-asleep": HARD_ASLEEP, "soft": SOFT, "soft-asleep": SOFT_ASLEEP}
SOFT_SLOT, NO_SLOT = 14, 15
SLOTS = {**{f"T{k}": k for k in range(THREADS)}, "S": SOFT_SLOT, "D": NO_SLOT}
SHARED, READ_ONLY = 8, 12
REGIONS = {**{f"T{k}": k for k in range(THREADS)}, "shared": SHARED, "readonly": READ_ONLY}


class SetupFault(Exception):
    """The first fault of a setup, with its path."""

    def __init__(self, code: SetupNo, path: str) -> None:
        super().__init__(code, path)
        self.code, self.path = code, path


@dataclass(frozen=True)
class ThreadSetup:
    """The settings of a thread; the defaults are those of a thread without a table."""

    mode: int = SOFT_ASLEEP
    entry: int = 0
    confined: bool = False
    permit: bool = False
    unplug: int | None = None
    inputs: tuple[tuple[int, int], ...] = ()


@dataclass(frozen=True)
class Loop:
    """The words from head to last, and how often the head is entered again from inside."""

    head: int
    last: int
    bound: int

    def holds(self, address: int) -> bool:
        return self.head <= address <= self.last


@dataclass(frozen=True)
class Setup:
    """An accepted setup; slots and regions are the words of their registers."""

    version: int
    period: int
    image: str
    slots: int
    iregions: int
    dregions: int
    threads: Sequence[ThreadSetup] = field(default_factory=lambda: [ThreadSetup()] * THREADS)
    loops: Sequence[Loop] = ()

    @property
    def size(self) -> int:
        """The bytes of a scratchpad."""
        return SIZES[self.version]

    @property
    def modes(self) -> int:
        """The word of the modes register."""
        return sum(thread.mode << 2 * k for k, thread in enumerate(self.threads))


def is_integer(value: object) -> bool:
    return isinstance(value, int) and not isinstance(value, bool)


def has_wide_integer(value: object) -> bool:
    """Whether a number is somewhere that 64 bits don't hold, which is a fault of the text."""
    if isinstance(value, Mapping):
        return any(map(has_wide_integer, value.values()))
    if isinstance(value, list):
        return any(map(has_wide_integer, value))
    return isinstance(value, int) and not -(1 << 63) <= value < 1 << 63


def depth(value: object) -> int:
    """How deep lists nest in a value."""
    if isinstance(value, Mapping):
        return max(map(depth, value.values()), default=0)
    return 1 + max(map(depth, value), default=0) if isinstance(value, list) else 0


def read_toml(data: bytes) -> dict[str, Any]:
    """The top table of a text; a byte order mark at its start is passed over."""
    try:
        table = tomllib.loads(data.decode("utf-8-sig"))
    except (ValueError, RecursionError):
        raise SetupFault(SetupNo.Toml, "-") from None
    if has_wide_integer(table) or depth(table) > MOST_DEPTH:
        raise SetupFault(SetupNo.Toml, "-")
    return table


def ranged(value: object, low: int, high: int, path: str, step: int = 1) -> int:
    """A number in a range, a multiple of `step`."""
    if not isinstance(value, int) or isinstance(value, bool):
        raise SetupFault(SetupNo.WrongType, path)
    if not (low <= value <= high and value % step == 0):
        raise SetupFault(SetupNo.OutOfRange, path)
    return value


@dataclass(frozen=True)
class Table:
    """A table of the text, with the path of its keys."""

    values: Mapping[str, Any]
    front: str = ""

    @staticmethod
    def of(value: object, name: str, keys: Sequence[str]) -> Table:
        """A row of an array of tables, which has no other keys."""
        if not isinstance(value, Mapping):
            raise SetupFault(SetupNo.WrongType, name)
        if not set(value) <= set(keys):
            raise SetupFault(SetupNo.UnknownKey, name)
        return Table(value, f"{name}.")

    def path(self, key: str) -> str:
        return self.front + key

    def needed(self, key: str) -> Any:
        if key not in self.values:
            raise SetupFault(SetupNo.MissingKey, self.path(key))
        return self.values[key]

    def number(self, key: str, low: int, high: int, step: int = 1) -> int:
        return ranged(self.needed(key), low, high, self.path(key), step)

    def text(self, key: str) -> str:
        value = self.needed(key)
        if not isinstance(value, str):
            raise SetupFault(SetupNo.WrongType, self.path(key))
        return value

    def flag(self, key: str) -> bool:
        value = self.values.get(key, False)
        if not isinstance(value, bool):
            raise SetupFault(SetupNo.WrongType, self.path(key))
        return value

    def items(self, key: str, most: int) -> list[Any]:
        """The list of a key, with at most `most` items; that of an absent key is empty."""
        value = self.values.get(key, [])
        if not isinstance(value, list):
            raise SetupFault(SetupNo.WrongType, self.path(key))
        if len(value) > most:
            raise SetupFault(SetupNo.TooMany, self.path(key))
        return value

    def eight(self, key: str, names: Mapping[str, int], code: SetupNo) -> int:
        """The register's word of eight names."""
        value = self.needed(key)
        if not isinstance(value, list):
            raise SetupFault(SetupNo.WrongType, self.path(key))
        if len(value) != 8:
            raise SetupFault(SetupNo.OutOfRange, self.path(key))
        return nibbles_word(
            named(name, names, code, f"{self.path(key)}[{k}]") for k, name in enumerate(value)
        )


def named(name: object, names: Mapping[str, int], code: SetupNo, path: str) -> int:
    """The number of a name."""
    if not isinstance(name, str):
        raise SetupFault(SetupNo.WrongType, path)
    if name not in names:
        raise SetupFault(code, path)
    return names[name]


def read_inputs(table: Table) -> tuple[tuple[int, int], ...]:
    """Pairs of a cycle and a word, at rising cycles."""
    inputs: list[tuple[int, int]] = []
    for k, pair in enumerate(table.items("inputs", MOST_INPUTS)):
        path = f"{table.path('inputs')}[{k}]"
        if not (isinstance(pair, list) and len(pair) == 2 and all(map(is_integer, pair))):
            raise SetupFault(SetupNo.WrongType, path)
        least = inputs[-1][0] + 1 if inputs else 0
        inputs.append(
            (ranged(pair[0], least, MOST_CYCLES, path), ranged(pair[1], 0, LAST_WORD, path))
        )
    return tuple(inputs)


def read_thread(table: Table, size: int, seen: set[int]) -> tuple[int, ThreadSetup]:
    """A thread's number and settings, with `seen` the numbers of the tables before."""
    number = table.number("id", 0, THREADS - 1)
    if number in seen:
        raise SetupFault(SetupNo.DoubleThread, table.path("id"))
    seen.add(number)
    mode = named(table.text("mode"), MODES, SetupNo.BadMode, table.path("mode"))
    entry = table.number("entry", 0, size - 4, 4)
    confined, permit = table.flag("confined"), table.flag("permit")
    if confined and permit:
        raise SetupFault(SetupNo.ConfinedPermit, table.path("permit"))
    unplug = table.number("unplug", 0, MOST_CYCLES) if "unplug" in table.values else None
    return number, ThreadSetup(mode, entry, confined, permit, unplug, read_inputs(table))


def read_threads(top: Table, size: int) -> list[ThreadSetup]:
    threads, seen = [ThreadSetup()] * THREADS, set[int]()
    for row, value in enumerate(top.items("thread", THREADS)):
        number, thread = read_thread(Table.of(value, f"thread[{row}]", THREAD_KEYS), size, seen)
        threads[number] = thread
    return threads


def read_loop(table: Table, size: int) -> Loop:
    head = table.number("head", 0, size - 4, 4)
    return Loop(
        head, table.number("last", head, size - 4, 4), table.number("bound", 0, MOST_ROUNDS)
    )


def read_loops(top: Table, size: int) -> list[Loop]:
    rows = enumerate(top.items("loop", MOST_LOOPS))
    return [read_loop(Table.of(value, f"loop[{row}]", LOOP_KEYS), size) for row, value in rows]


def read_image_name(top: Table) -> str:
    name = top.text("image")
    if not 1 <= len(name.encode()) <= MOST_NAME:
        raise SetupFault(SetupNo.OutOfRange, "image")
    return name


def read_setup(data: bytes) -> Setup:
    """The setup of a text; raises SetupFault with its first fault."""
    if len(data) > MOST_BYTES:
        raise SetupFault(SetupNo.TooLong, "-")
    top = Table(read_toml(data))
    if not set(top.values) <= set(TOP_KEYS):
        raise SetupFault(SetupNo.UnknownKey, "top")
    version = ranged(top.values.get("version", 1), min(SIZES), max(SIZES), "version")
    period, image = top.number("period", 1, MOST_PERIOD), read_image_name(top)
    slots = top.eight("slots", SLOTS, SetupNo.BadSlot)
    iregions = top.eight("i_regions", REGIONS, SetupNo.BadRegion)
    dregions = top.eight("d_regions", REGIONS, SetupNo.BadRegion)
    threads, loops = read_threads(top, SIZES[version]), read_loops(top, SIZES[version])
    return Setup(version, period, image, slots, iregions, dregions, threads, loops)
