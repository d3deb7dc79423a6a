"""The whole machine, cycle by cycle, each instruction whole in the cycle of its issue."""
from __future__ import annotations

from collections.abc import Iterator, Mapping
from dataclasses import dataclass
from enum import Enum

from model.effects import Event, Written
from model.images import DATA, Image
from model.issues import Step, Thread
from model.bits import nibble, u32
from model.ports import Ports, Shown
from model.registers import (
    DREGIONS,
    IREGIONS,
    MACHINE_CSRS,
    MODES,
    PORT,
    SLOTS,
    Regions,
    mode,
    pick,
)
from model.setups import HARD, READ_ONLY, SOFT, THREADS, Setup

RETIRES = 4
"""The number of cycles from an issue to its line."""

SEEN_BY_PICKING = 3
"""The number of cycles from a write of slots or modes to the first pick that sees it."""


class Kind(Enum):
    """The result of a cycle."""

    BUBBLE = "-"
    FLUSHED = "flushed"
    ISSUE = "issue"


@dataclass(frozen=True)
class PortCall:
    """A load from a thread's port, or a store of a word to it."""

    thread: int
    cycle: int
    stored: int | None = None


@dataclass(frozen=True)
class Turn:
    """The result of a cycle: nobody's turn, a turn that its thread lost, or an issue, whose event is None if it
    spins."""

    kind: Kind
    thread: int = 0
    pc: int = 0
    word: int = 0
    event: Event | None = None
    port: PortCall | None = None


BUBBLE = Turn(Kind.BUBBLE)


class World:
    """The machine after `at` cycles. `step` does one more."""

    def __init__(self, setup: Setup, image: Image, ports: Ports) -> None:
        self.setup, self.size = setup, setup.size
        self.threads = [Thread(thread.entry) for thread in setup.threads]
        self.code, self.data = image.scratchpad(0, self.size), image.scratchpad(DATA, self.size)
        self.csrs = {
            SLOTS: setup.slots,
            MODES: setup.modes,
            DREGIONS: setup.dregions,
            IREGIONS: setup.iregions,
        }
        self.shown = [Shown(thread, port) for thread, port in zip(setup.threads, ports)]
        self.latches = [port.kept if port else None for port in ports]
        self.last = THREADS - 1
        self.at = 0
        self.turns: list[Turn] = []
        self.granted: list[list[tuple[int, int]]] = [[] for _ in range(THREADS)]
        self._picking = [self._settings()] * SEEN_BY_PICKING

    def _settings(self) -> tuple[int, int, tuple[int, ...]]:
        """The state that picking uses when it sees it: slots, modes, and the moments until which threads sleep."""
        return self.csrs[SLOTS], self.csrs[MODES], tuple(thread.sleep for thread in self.threads)

    def step(self) -> Turn:
        """Does a cycle."""
        cycle, now = self.at, self.at * self.setup.period
        number, self.last = pick(*self._picking[0], cycle, now, self.last)
        turn = BUBBLE if number is None else self._turn(number, cycle, now)
        self.turns.append(turn)
        self.at += 1
        self._picking = [*self._picking[1:], self._settings()]
        return turn

    def _turn(self, number: int, cycle: int, now: int) -> Turn:
        thread = self.threads[number]
        if cycle < thread.ready:
            return Turn(Kind.FLUSHED, number)
        around = InWorld(self, number, cycle)
        pc = thread.pc
        word, event = Step(thread, number, cycle, now, around).issue()
        return Turn(Kind.ISSUE, number, pc, word, event, around.port)

    def skip_sleep(self, end: int) -> None:
        """Does the cycles up to `end`, or to the next moment at which a thread wakes, if all threads sleep until then.

        Nobody has a turn in these cycles. It needs settings that stay: no write is on its way to picking.
        """
        _, modes, sleeps = self._picking[0]
        if any(setting != self._picking[0] for setting in self._picking):
            return
        moments = [
            sleep for number, sleep in enumerate(sleeps) if mode(modes, number) in (HARD, SOFT)
        ]
        wakes = -(-min(moments, default=end * self.setup.period) // self.setup.period)
        skipped = max(min(wakes, end) - self.at, 0)
        self.turns += [BUBBLE] * skipped
        self.at += skipped

    def run_to(self, cycles: int) -> World:
        """Does cycles up to a number."""
        while self.at < cycles:
            self.step()
        return self

    def retired(self, cycles: int) -> Iterator[Event]:
        """The events that have retired after a number of cycles."""
        events = (turn.event for turn in self.turns[: max(cycles - RETIRES, 0)])
        return (event for event in events if event is not None)

    def regions(self) -> Regions:
        return Regions(self.csrs[IREGIONS], self.csrs[DREGIONS], self.size)

    def is_quiet(self) -> bool:
        """Whether no instruction has written a configuration register."""
        return not any(is_setting(turn.event) for turn in self.turns)


def is_setting(event: Event | None, csrs: tuple[int, ...] = MACHINE_CSRS) -> bool:
    """Whether an event wrote one of these configuration registers."""
    return event is not None and isinstance(event.effect, Written) and event.effect.csr in csrs


class InWorld:
    """The environment of a thread's issue in a cycle."""

    def __init__(self, world: World, number: int, cycle: int) -> None:
        self.world, self.number, self.cycle = world, number, cycle
        self.setup = world.setup.threads[number]
        self.port: PortCall | None = None

    def fetch(self, pc: int) -> int | None:
        if not self.world.regions().may_fetch(self.number, self.setup.confined, pc):
            return None
        return u32(self.world.code, pc)

    def load(self, address: int, width: int) -> int | None:
        if not self.world.regions().may_load(self.number, self.setup.confined, address, width):
            return None
        if address == PORT:
            self.port = PortCall(self.number, self.cycle)
            return self.world.shown[self.number](self.cycle)
        aligned = address & ~3
        return u32(self.world.code, aligned) if address < DATA else self._load_data(aligned)

    def _load_data(self, address: int) -> int:
        value = u32(self.world.data, address - DATA)
        if self.world.regions().owner(address, 4) not in (self.number, READ_ONLY):
            self.world.granted[self.number].append((self.cycle, value))
        return value

    def may_store(self, address: int, width: int) -> bool:
        return self.world.regions().may_store(self.number, address, width)

    def store(self, address: int, width: int, value: int) -> None:
        if address != PORT:
            self.world.data[address - DATA : address - DATA + width] = value.to_bytes(
                width, "little"
            )
            return
        self.port = PortCall(self.number, self.cycle, value)
        if not self.world.shown[self.number].is_open(self.cycle):
            self.world.latches[self.number] = value

    def machine_csrs(self, writes: bool) -> Mapping[int, int] | None:
        return self.world.csrs if self.setup.permit else None

    def write_machine_csr(self, csr: int, value: int) -> None:
        self.world.csrs[csr] = value


@dataclass(frozen=True)
class Setting:
    """The state that picking uses from a cycle on."""

    cycle: int
    slots: int
    modes: int

    def line(self) -> bytes:
        return f"{self.cycle:10d} {self.slots:08x} {self.modes:08x}\n".encode()

    def after(self, event: Event) -> Setting | None:
        """The next setting, if an event writes slots or modes."""
        effect = event.effect
        if not (isinstance(effect, Written) and effect.csr in (SLOTS, MODES)):
            return None
        slots = effect.value if effect.csr == SLOTS else self.slots
        modes = effect.value if effect.csr == MODES else self.modes
        return Setting(event.cycle + SEEN_BY_PICKING, slots, modes)


def settings(setup: Setup, world: World, cycles: int) -> list[Setting]:
    """The settings whose writes have retired after a number of cycles, the setup's first."""
    found = [Setting(0, setup.slots, setup.modes)]
    for event in world.retired(cycles):
        if setting := found[-1].after(event):
            found.append(setting)
    return found


def entries(regions: int) -> list[int]:
    """The entries of a register of regions."""
    return [nibble(regions, k) for k in range(8)]
