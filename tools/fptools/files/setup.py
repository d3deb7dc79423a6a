"""A setup as data: its threads and loops, and the line of each key.

    from fptools.files.lint import read_valid

    setup = read_valid(Path("examples/drive.toml"))
    print(setup.period, setup.slots, [thread.entry for thread in setup.threads])

`read_setup` takes each TOML document, `read_valid` only what the program takes. docs/FORMATS.md has the
keys and their ranges."""
from __future__ import annotations

import re
import tomllib
from dataclasses import dataclass
from functools import cached_property
from pathlib import Path
from typing import Callable, Iterator

from fptools.files.toml import read_toml
from fptools.limits import DATA_START, LARGE, SMALL
from fptools.untyped import Values

REGIONS = 8

MOST_BYTES = 262_144

# A comment, or a text, in which a `#` begins none.
TEXT_OR_COMMENT = re.compile(r"""("(?:[^"\\]|\\.)*"|'[^']*')|#.*""")

KeyPath = tuple[str | int, ...]


def spelled(path: KeyPath) -> str:
    """A path as the program's refusals spell it: `slots[3]`, `thread[2].entry`, `top`."""
    text = ""
    for part in path:
        text += f"[{part}]" if isinstance(part, int) else f".{part}" if text else part
    return text or "top"


@dataclass(frozen=True)
class ThreadTable:
    """A table `[[thread]]`: a key that it leaves out has its default."""

    id: int
    mode: str  # hard, hard-asleep, soft or soft-asleep
    entry: int
    confined: bool
    permit: bool
    unplug: int | None  # the cycle from which on it has no port
    inputs: tuple[tuple[int, int], ...]  # cycles, each with its word

    @classmethod
    def of(cls, table: Values) -> ThreadTable:
        return cls(
            table["id"],
            table["mode"],
            table["entry"],
            table.get("confined", False),
            table.get("permit", False),
            table.get("unplug"),
            tuple((cycle, word) for cycle, word in table.get("inputs", ())),
        )


@dataclass(frozen=True)
class LoopTable:
    """A loop by its first and last word, and how often a table says that it goes back, at most."""

    head: int
    last: int
    bound: int | None = None  # None where no table states it


@dataclass
class Setup:
    """A setup's values as TOML has them, and the line of each key. The properties are those of a setup
    that the program takes."""

    path: Path
    values: Values
    lines: dict[KeyPath, int]

    def line(self, path: KeyPath) -> int | None:
        """The line of a key, or of the nearest that holds it."""
        while path not in self.lines and path:
            path = path[:-1]
        return self.lines.get(path)

    @property
    def size(self) -> int:
        """The bytes of a scratchpad."""
        return LARGE if self.values.get("version") == 2 else SMALL

    @property
    def period(self) -> int:
        """Nanoseconds of a cycle."""
        return int(self.values["period"])

    @property
    def image(self) -> Path:
        """The image's file, from the folder of the call."""
        return Path(self.values["image"])

    @property
    def slots(self) -> list[str]:
        """The owners of the eight slots: `T0` to `T7`, `S` or `D`."""
        return list(self.values["slots"])

    @cached_property
    def threads(self) -> list[ThreadTable]:
        """The threads that have a table, in the order of the tables."""
        return [ThreadTable.of(it) for it in self.values.get("thread", [])]

    @cached_property
    def loops(self) -> list[LoopTable]:
        return [
            LoopTable(it["head"], it["last"], it["bound"]) for it in self.values.get("loop", [])
        ]

    def thread(self, number: int) -> ThreadTable | None:
        """The table of a thread. A thread without one is soft and asleep, with entry 0."""
        return next((it for it in self.threads if it.id == number), None)

    @property
    def has_permits(self) -> bool:
        """Whether a thread may write slots, modes and regions."""
        return any(it.permit for it in self.threads)

    def region(self, key: str, address: int) -> str:
        """Whose the region of an address is, of `i_regions` or `d_regions`."""
        owner: str = self.values[key][address % DATA_START * REGIONS // self.size]
        return owner

    def fetches(self, number: int) -> Callable[[int], bool]:
        """Whether a thread may fetch a word of the instruction scratchpad, by its address."""
        table = self.thread(number)
        own = (f"T{number}", "readonly")

        def may_fetch(pc: int) -> bool:
            is_free = table is not None and not table.confined
            return pc < self.size and (is_free or self.region("i_regions", pc) in own)

        return may_fetch


def read_setup(path: Path) -> Setup:
    """Reads a setup. A file that isn't a TOML document is a `TomlError`."""
    text, values = read_toml(path, MOST_BYTES)
    return Setup(path, values, dict(_lines_of(text)))


def setup_of(path: Path, text: str) -> Setup:
    """The setup that a text is, which is a TOML document."""
    return Setup(path, tomllib.loads(text), dict(_lines_of(text)))


def _lines_of(text: str) -> Iterator[tuple[KeyPath, int]]:
    """The paths of a text's keys and of its tables, with their lines."""
    counts: dict[str, int] = {}
    table: KeyPath = ()
    for number, statement in _statements(text):
        keys = tomllib.loads(statement)
        if not statement.lstrip().startswith("["):
            yield from ((table + (key,), number) for key in keys)
            continue
        name = next(iter(keys))
        table = (name,)
        if name not in counts:
            yield table, number
        if statement.lstrip().startswith("[["):
            counts[name] = counts.get(name, -1) + 1
            table = (name, counts[name])
            yield table, number


def _statements(text: str) -> Iterator[tuple[int, str]]:
    """The runs of lines that TOML reads alone, as a list over several lines, with the number of their first."""
    begun, lines = 0, ""
    for number, line in enumerate(text.split("\n"), 1):
        begun = begun if lines else number
        lines += line + "\n"
        # A line that ends so is no end of a statement; asking TOML at each line of a long list would take long.
        if TEXT_OR_COMMENT.sub(r"\1", line).rstrip().endswith((",", "[")):
            continue
        try:
            is_empty = not tomllib.loads(lines)
        except tomllib.TOMLDecodeError:
            continue
        if not is_empty:
            yield begun, lines
        lines = ""
