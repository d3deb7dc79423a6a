"""The machine of a run between two issues: its state for a debugger, and the moves of its position.

The position is a cycle: all issues before it are complete, and none from it on has begun."""
from __future__ import annotations

from dataclasses import dataclass
from typing import Iterable, Mapping

from fptools.files.dump import THREADS
from fptools.gdb.history import WINDOW, History, event_in
from fptools.gdb.registers import CYCLE, MHARTID, PC, REGISTERS, TIME, Register
from fptools.gdb.runs import RETIRES, Runs, Waiter
from fptools.gdb.state import CONFIGURATION, PORT, SHOWN_LATER, State, States
from fptools.program.calls import Flexpret
from fptools.files.setup import Setup
from fptools.limits import DATA_START
from fptools.files.trace import Event
from fptools.isa.words import Flow, Word

AHEAD = 1  # windows behind the position's own in which a thread's next issue is looked for
MOST_CYCLES = 3_999_900_000  # so that the program can be asked for what is behind the last window
SLOTS_OF_FRAME = 8
TURNS_OF_DUMP, DUMPS = (
    4,
    4,
)  # how many turns a dump shows of issues, and how many dumps are looked at
WORD = 4


@dataclass(frozen=True)
class Mode:
    """A thread's mode by the register `modes`."""

    is_hard: bool
    is_asleep: bool

    @classmethod
    def of(cls, modes: int, thread: int) -> Mode:
        code = modes >> 2 * thread & 3
        return cls(code < 2, code % 2 == 1)


class Machine:
    """A run of a setup for some cycles, at a position."""

    def __init__(
        self,
        flexpret: Flexpret,
        setup: Setup,
        image: Mapping[int, int],
        cycles: int,
        waiter: Waiter,
    ) -> None:
        self.setup, self.end = setup, cycles
        windows = -(-cycles // WINDOW) + AHEAD + 1
        self.runs = Runs(flexpret, setup.path, windows * WINDOW + RETIRES, waiter)
        self.runs.start(setup.path, setup.image)
        self.code = {at: bits for at, bits in image.items() if at < DATA_START}
        self.history = History(self.runs, list(_may_run(setup)))
        self.states = States(self.runs, self.history)
        self.now = 0
        self.goal: int | None = None  # where it is put when it is next to go on
        self._slept: dict[tuple[int, int], int] = {}  # moments, by thread and cycle of a WU
        self._spun: dict[
            tuple[int, int], int | None
        ] = {}  # addresses, by thread and cycle of the event before

    @property
    def period(self) -> int:
        """Nanoseconds of a cycle."""
        return self.setup.period

    @property
    def time(self) -> int:
        """Nanoseconds since the start."""
        return self.now * self.period

    @property
    def state(self) -> State:
        return self.states.at(self.now)

    def close(self) -> None:
        self.history.close()

    def move(self, cycle: int, thread: int) -> None:
        """Puts the machine before a cycle, and reads the state of a thread there."""
        self.now = cycle
        self.pc(thread)
        self.states.at(cycle)
        for each in range(THREADS):
            self.wakes(each)

    def next_event(self, thread: int) -> Event | None:
        """The thread's next issue, if it comes soon."""
        for window in self.history.onwards(self.now, (self.now // WINDOW + 1 + AHEAD) * WINDOW):
            line = window.next_line(thread, self.now)
            if line:
                return event_in(line)
        return None

    def last_event(self, thread: int) -> Event | None:
        """The thread's last issue."""
        line = self.history.at(self.now).line_before(thread, self.now)
        return event_in(line) if line else None

    def pc(self, thread: int) -> int | None:
        """The address of the thread's next issue; None if the events around don't determine it."""
        last = self.last_event(thread)
        if last is not None and last.is_wait:
            return last.pc + WORD
        ahead = self.next_event(thread)
        if ahead is not None:
            return ahead.pc
        if last is None:
            return self._entry(thread)
        behind = _behind(last)
        return self._tried(thread, last.cycle) if behind is None else behind

    def _tried(self, thread: int, cycle: int) -> int | None:
        """The address of a thread's first issue after that of a cycle, if it comes soon. A DU that
        spins has no event, but a dump shows it in its stages."""
        if (thread, cycle) not in self._spun:
            dumps = (self.runs.dump(cycle + TURNS_OF_DUMP * (it + 1) + 2) for it in range(DUMPS))
            turns = (turn for dump in dumps for turn in reversed(list(dump.stages.values())))
            self._spun[thread, cycle] = next(
                (it.pc for it in turns if it.thread == thread and it.bits), None
            )
        return self._spun[thread, cycle]

    def _entry(self, thread: int) -> int:
        """Where a thread begins."""
        table = self.setup.thread(thread)
        return table.entry if table else 0

    def value(self, thread: int, register: Register, number: int) -> int | None:
        """The value of a register by its number for gdb."""
        if number <= PC:
            return self.state.registers[thread][number] if number < PC else self.pc(thread)
        if register.csr is None:
            return {CYCLE: self.now, TIME: self.time}[register.name]
        if register.csr == MHARTID:
            return thread
        csrs = (
            self.state.configuration if register.csr in CONFIGURATION else self.state.csrs[thread]
        )
        return csrs[register.csr]

    def values(self, thread: int) -> Iterable[tuple[Register, int | None]]:
        """All registers of a thread, in gdb's order."""
        return [(it, self.value(thread, it, number)) for number, it in enumerate(REGISTERS)]

    def memory(self, thread: int, address: int, size: int) -> bytes:
        """The bytes from an address on that a thread can see, up to the first that isn't there."""
        found = bytearray()
        while len(found) < size:
            at = address + len(found)
            word = self._word(thread, at & ~3)
            if word is None:
                break
            found += word.to_bytes(WORD, "little")[at & 3 :]
        return bytes(found[:size])

    def _word(self, thread: int, address: int) -> int | None:
        """A word of a scratchpad, or the port's latch."""
        if address == PORT:
            return self.state.latches[thread] if self._has_port(thread) else None
        if 0 <= address < self.setup.size:
            return self.code.get(address, 0)
        if DATA_START <= address < DATA_START + self.setup.size:
            return self.state.data.get(address, 0)
        return None

    def _has_port(self, thread: int) -> bool:
        table = self.setup.thread(thread)
        return table is None or table.unplug is None or self.now < table.unplug

    def wakes(self, thread: int) -> int | None:
        """The moment until which a thread sleeps by WU, in nanoseconds; None where it doesn't."""
        last = self.last_event(thread)
        if last is None or not last.is_wait:
            return None
        key = thread, last.cycle
        if key not in self._slept:
            self._slept = {
                (other, event.cycle): it.sleep
                for other, it in enumerate(self.runs.dump(self.now + SHOWN_LATER).threads)
                if (event := self.last_event(other)) is not None
            }
        return self._slept[key] if self._slept[key] > self.time else None

    def described(self, thread: int) -> str:
        """A thread's mode, slots and sleep in words."""
        state = self.state
        slots, modes = (state.configuration[csr] for csr in CONFIGURATION[:2])
        mode = Mode.of(modes, thread)
        frame = [slots >> 4 * at & 15 for at in range(SLOTS_OF_FRAME)]
        own = [str(at) for at, code in enumerate(frame) if code == thread]
        parts = ["hard" if mode.is_hard else "soft"]
        if own or mode.is_hard:
            parts.append(f"slot{'s' * (len(own) > 1)} {' '.join(own)}" if own else "no slot")
        moment = self.wakes(thread)
        if mode.is_asleep:
            parts.append("asleep")
        elif moment is not None:
            parts.append(f"asleep until {moment} ns (cycle {-(-moment // self.period)})")
        else:
            parts.append("awake")
        return ", ".join(parts)


def _may_run(setup: Setup) -> Iterable[int]:
    """The threads that may ever issue. Without a permit nobody wakes one that starts asleep."""
    if setup.has_permits:
        return range(THREADS)
    awake = [it for it in setup.threads if it.mode in ("hard", "soft")]
    return [it.id for it in awake if it.mode == "soft" or f"T{it.id}" in setup.slots]


def _behind(event: Event) -> int | None:
    """The address after an issue, if the word determines it."""
    if event.handler is not None:
        return event.handler
    word = Word(event.pc, event.bits)
    if word.flow in (Flow.JUMP, Flow.CALL):
        return word.target
    return word.next if word.flow in (Flow.NEXT, Flow.WAIT) else None
