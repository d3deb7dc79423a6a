"""The state of the machine between two issues: a dump, and the effects of the events behind it.

A state of cycle c has the effects of all issues before c, and of none from c on. A dump of n cycles
shows registers up to the issue of cycle n - 5, data and ports up to n - 4, and CSRs up to n - 3."""
from __future__ import annotations

import re
from collections import OrderedDict
from dataclasses import dataclass

from fptools.files.dump import THREADS, Dump
from fptools.gdb.history import WINDOW, History, Window
from fptools.gdb.registers import DREGIONS, IREGIONS, MCAUSE, MEPC, MODES, MSCRATCH, MTVEC, SLOTS
from fptools.gdb.runs import Runs
from fptools.files.trace_blocks import CYCLE, EFFECT

PORT = 0x4000_0000
CONFIGURATION = (SLOTS, MODES, DREGIONS, IREGIONS)

REGISTER = re.compile(rb" x(\d\d)=([0-9a-f]{8})")
STORE = re.compile(rb"\[([0-9a-f]{8})\]/([124])=([0-9a-f]{8})")
CONTROL = re.compile(
    rb" csr (?P<csr>[0-9a-f]{3})=(?P<value>[0-9a-f]{8})"
    rb"|(?P<pc>[0-9a-f]{8}) [0-9a-f]{8} trap (?P<cause>\d+) "
)

SHOWN_LATER = 2  # cycles until a dump shows the CSRs that an issue wrote
REGISTERS_LATER, DATA_LATER = 4, 3
CARRIED = 16  # windows over which a state is carried on rather than asked for
STEP_BACK = 8  # windows before one that is asked for, for those who go backwards
KEPT = 32  # states


@dataclass
class State:
    """Registers, CSRs and latches of each thread, configuration registers, and words of data."""

    registers: list[list[int]]
    csrs: list[dict[int, int]]
    latches: list[int]  # the last word that was stored to a port; 0 where the port is missing
    configuration: dict[int, int]
    data: dict[int, int]  # the words that aren't 0, or were written

    def copy(self) -> State:
        return State(
            [list(it) for it in self.registers],
            [dict(it) for it in self.csrs],
            list(self.latches),
            dict(self.configuration),
            dict(self.data),
        )

    def carry(self, window: Window, start: int, end: int) -> None:
        """Adds the effects of the issues in a window, from a cycle on and before another."""
        lines = [window.lines(thread, start, end) for thread in range(THREADS)]
        configured: list[tuple[int, int, int]] = []
        for thread in range(THREADS):
            self.write_registers(thread, lines[thread])
            configured += self.write_csrs(thread, lines[thread])
        self.configuration |= {csr: value for _, csr, value in sorted(configured)}
        self.store(lines)

    def write_registers(self, thread: int, lines: bytes) -> None:
        registers = self.registers[thread]
        for number, value in dict(REGISTER.findall(lines)).items():
            registers[int(number)] = int(value, 16)

    def write_csrs(self, thread: int, lines: bytes) -> list[tuple[int, int, int]]:
        """Writes the thread's own CSRs. Returns cycle, CSR and value of writes of the others."""
        configured: list[tuple[int, int, int]] = []
        if b" csr " not in lines and b" trap " not in lines:
            return configured
        own = self.csrs[thread]
        for found in CONTROL.finditer(lines):
            if found["cause"]:
                own |= {MEPC: int(found["pc"], 16), MCAUSE: int(found["cause"])}
                continue
            csr, value = int(found["csr"], 16), int(found["value"], 16)
            if csr in CONFIGURATION:
                start = lines.rfind(b"\n", 0, found.start()) + 1
                configured.append((int(lines[start : start + CYCLE.stop]), csr, value))
            else:
                own[csr] = value
        return configured

    def store(self, lines: list[bytes]) -> None:
        """Adds the stores in lines of all threads, in the order of their cycles."""
        stores = []
        for thread, text in enumerate(lines):
            for found in STORE.finditer(text):
                start = found.start() - EFFECT.start
                stores.append((int(text[start : start + CYCLE.stop]), thread, found))
        for _, thread, found in sorted(stores, key=lambda it: it[0]):
            self._store(thread, int(found[1], 16), int(found[2]), int(found[3], 16))

    def _store(self, thread: int, address: int, size: int, value: int) -> None:
        if address == PORT:
            self.latches[thread] = value
            return
        word, shift = address & ~3, 8 * (address & 3)
        mask = (1 << 8 * size) - 1
        self.data[word] = self.data.get(word, 0) & ~(mask << shift) | (value & mask) << shift


def _of_dump(dump: Dump) -> State:
    """The content of a dump, for any cycle."""
    return State(
        [list(it.registers) for it in dump.threads],
        [
            {MTVEC: it.mtvec, MSCRATCH: it.mscratch, MEPC: it.mepc, MCAUSE: it.mcause}
            for it in dump.threads
        ],
        [it.latch or 0 for it in dump.threads],
        dict(zip(CONFIGURATION, (dump.slots, dump.modes, dump.dregions, dump.iregions))),
        dict(dump.data),
    )


class States:
    """States at cycles of a run: from dumps at the start of some windows, and carried on."""

    def __init__(self, runs: Runs, history: History) -> None:
        self._runs, self._history = runs, history
        self._kept: OrderedDict[int, State] = OrderedDict()  # by the number of a window
        self._last: tuple[int, State] | None = None
        self._far = -CARRIED - 1  # the window of the last cycle whose own state was asked for

    def at(self, cycle: int) -> State:
        """The state before the issue of a cycle. It isn't to be changed."""
        number = cycle // WINDOW
        start, state = self._last or (0, None)
        if state is None or not max(number - CARRIED, 0) * WINDOW <= start <= cycle:
            start, state = number * WINDOW, None
            is_near = any(number - CARRIED <= it <= number for it in self._kept)
            if is_near or abs(number - self._far) <= CARRIED:
                state = self.of_window(number).copy()
        self._last = None  # it is broken while it is carried
        if state is None:
            state, self._far = self._asked(cycle), number
        else:
            for window in self._history.onwards(start, cycle):
                state.carry(window, max(start, window.first), min(cycle, window.end))
        self._last = cycle, state
        return state

    def of_window(self, number: int) -> State:
        """The state before a window. It isn't to be changed."""
        near = [it for it in self._kept if number - CARRIED <= it <= number]
        start = max(near) if near else self._start(number)
        if start not in self._kept:
            self._keep(start, self._asked(start * WINDOW))
        for earlier in range(start, number):
            if earlier + 1 not in self._kept:
                state = self._kept[earlier].copy()
                window = self._history.window(earlier)
                state.carry(window, window.first, window.end)
                self._keep(earlier + 1, state)
        return self._kept[number]

    def _start(self, number: int) -> int:
        """The window before a window whose state is asked for. No window is read for it that isn't
        needed: the one before it is kept, if there are some."""
        kept = self._history.kept_before(number, STEP_BACK + 1)
        is_far = kept >= min(number, STEP_BACK + 1)
        return max(number - STEP_BACK, 0) if is_far else number - max(kept - 1, 0)

    def _keep(self, number: int, state: State) -> None:
        self._kept[number] = state
        while len(self._kept) > KEPT:
            self._kept.popitem(last=False)

    def _asked(self, cycle: int) -> State:
        """The state before a cycle: a dump, and the last effects that it shows only of CSRs."""
        state = _of_dump(self._runs.dump(cycle + SHOWN_LATER))
        unwritten, unstored = (
            self._lines(max(cycle + SHOWN_LATER - later, 0), cycle)
            for later in (REGISTERS_LATER, DATA_LATER)
        )
        for thread, lines in enumerate(unwritten):
            state.write_registers(thread, lines)
        state.store(unstored)
        return state

    def _lines(self, start: int, end: int) -> list[bytes]:
        """The lines of each thread from a cycle on and before another."""
        windows = list(self._history.onwards(start, end))
        return [b"".join(it.lines(at, start, end) for it in windows) for at in range(THREADS)]
