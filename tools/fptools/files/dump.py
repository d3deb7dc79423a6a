"""The output of `flexpret dump` and `flexpret phases`, as data.

    from fptools.files.dump import read_dump

    state = read_dump(text)
    print(state.cycles, state.threads[0].registers[10], hex(state.data.get(0x2000_0000, 0)))

docs/FORMATS.md says how old each part of a dump is: registers show the issues up to four cycles before,
data and ports those up to three, the others those up to two."""

import re
from dataclasses import dataclass
from typing import Sequence

THREADS, REGISTERS, REGISTERS_A_LINE = 8, 32, 8
STAGES = ("D", "E", "M", "W")
LINES_OF_HEAD, LINES_OF_THREAD = 10, 7
DATA = re.compile(r"\[([0-9a-f]{8})\]((?: [0-9a-f]{8}){8})")
TURN = re.compile(r"(?:-|T(?P<thread>[0-7]) (?:flushed|(?P<pc>[0-9a-f]{8}) (?P<bits>[0-9a-f]{8})))")
TIMES = re.compile(
    r"armed (?P<armed>-|[0-9a-f]{16}) sleep (?P<sleep>[0-9a-f]{16}) high (?P<high>[0-9a-f]{8})"
)
SETTING = re.compile(r" *(\d+) ([0-9a-f]{8}) ([0-9a-f]{8})")


class NoDump(Exception):
    """A text isn't an output of the program; the message has the line."""


@dataclass(frozen=True)
class Turn:
    """A turn in a stage: nobody's, one that its thread lost, or an issue with its pc and word (0 where
    none issues)."""

    thread: int | None = None
    pc: int | None = None
    bits: int | None = None

    @property
    def is_flushed(self) -> bool:
        return self.thread is not None and self.pc is None


@dataclass(frozen=True)
class ThreadState:
    """The observed state of a thread. Moments are nanoseconds."""

    registers: tuple[int, ...]  # x0 to x31
    mtvec: int
    mscratch: int
    mepc: int
    mcause: int
    armed: int | None  # the moment that EE armed
    sleep: int  # until when it sleeps or last slept; 0 where it never did
    high: int  # the high word of the time that GT latched
    latch: int | None  # the last word written to its port; None where no port is there


@dataclass(frozen=True)
class Dump:
    """The observed state of the machine after some cycles."""

    cycles: int
    fetching: int | None  # the thread that was picked in the last cycle
    stages: dict[str, Turn]  # D, E, M and W: the turns of two to five cycles before
    slots: int
    modes: int
    dregions: int
    iregions: int
    threads: tuple[ThreadState, ...]
    data: dict[
        int, int
    ]  # the words of the data scratchpad by their addresses; those that are left out are 0


@dataclass(frozen=True)
class Setting:
    """The settings that thread selection uses from a cycle on."""

    cycle: int
    slots: int
    modes: int


class _Lines:
    """The lines of a text, one after the other."""

    def __init__(self, text: str) -> None:
        self._lines = text.splitlines()
        self._at = 0

    def after(self, head: str) -> str:
        """The rest of the next line, after its head."""
        line = self._lines[self._at] if self._at < len(self._lines) else ""
        if not line.startswith(f"{head} "):
            raise NoDump(f"line {self._at + 1}: no {head!r}: {line[:80]!r}")
        self._at += 1
        return line[len(head) + 1 :]

    def words(self, head: str, count: int) -> list[int]:
        """Words in hexadecimal digits after a head."""
        words = self.after(head).split(" ")
        if len(words) != count or any(re.fullmatch("[0-9a-f]{8}", word) is None for word in words):
            raise self.fault(f"no {count} words after {head!r}")
        return [int(word, 16) for word in words]

    def matched(self, head: str, pattern: re.Pattern[str]) -> re.Match[str]:
        found = pattern.fullmatch(self.after(head))
        if found is None:
            raise self.fault(f"what follows {head!r} is none of its forms")
        return found

    def fault(self, text: str) -> NoDump:
        """A fault of the line that was read last."""
        return NoDump(f"line {self._at}: {text}: {self._lines[self._at - 1][:80]!r}")

    def rest(self) -> list[tuple[int, str]]:
        """The lines that are left, with their numbers."""
        return list(enumerate(self._lines[self._at :], self._at + 1))


def read_dump(text: str) -> Dump:
    """The state that `dump` writes; another text is a `NoDump`."""
    lines = _Lines(text)
    cycles = lines.matched("cycles", re.compile(r"\d+"))
    picked = lines.matched("F", re.compile(r"-|T([0-7])"))
    stages = {stage: _turn(lines.matched(stage, TURN)) for stage in STAGES}
    slots, modes, dregions, iregions = (
        lines.words(name, 1)[0] for name in ("slots", "modes", "dregions", "iregions")
    )
    threads = tuple(_thread(lines, number) for number in range(THREADS))
    fetching = int(picked[1]) if picked[1] else None
    return Dump(
        int(cycles[0]),
        fetching,
        stages,
        slots,
        modes,
        dregions,
        iregions,
        threads,
        _data(lines.rest()),
    )


def _turn(found: re.Match[str]) -> Turn:
    numbers = [
        None if found[name] is None else int(found[name], base)
        for name, base in (("thread", 10), ("pc", 16), ("bits", 16))
    ]
    if numbers[0] is None and found[0] != "-":
        numbers[0] = int(found[0][1])
    return Turn(*numbers)


def _thread(lines: _Lines, number: int) -> ThreadState:
    registers: list[int] = []
    for first in range(0, REGISTERS, REGISTERS_A_LINE):
        registers += lines.words(f"T{number} x{first:02}", REGISTERS_A_LINE)
    mtvec, mscratch, mepc, mcause = lines.words(f"T{number} csr", 4)
    times = lines.matched(f"T{number}", TIMES)
    latch = lines.matched(f"T{number} latch", re.compile("open|[0-9a-f]{8}"))[0]
    armed = None if times["armed"] == "-" else int(times["armed"], 16)
    sleep, high = int(times["sleep"], 16), int(times["high"], 16)
    kept = None if latch == "open" else int(latch, 16)
    return ThreadState(tuple(registers), mtvec, mscratch, mepc, mcause, armed, sleep, high, kept)


def _data(lines: Sequence[tuple[int, str]]) -> dict[int, int]:
    data: dict[int, int] = {}
    for number, line in lines:
        found = DATA.fullmatch(line)
        if found is None:
            raise NoDump(f"line {number}: no words of data: {line[:80]!r}")
        start = int(found[1], 16)
        data |= {start + 4 * index: int(word, 16) for index, word in enumerate(found[2].split())}
    return data


def read_phases(text: str) -> list[Setting]:
    """The settings that `phases` writes; another text is a `NoDump`."""
    settings = []
    for number, line in enumerate(text.splitlines(), 1):
        found = SETTING.fullmatch(line)
        if found is None:
            raise NoDump(f"line {number}: no setting: {line[:80]!r}")
        settings.append(Setting(int(found[1]), int(found[2], 16), int(found[3], 16)))
    return settings
