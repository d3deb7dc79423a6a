"""Closed loops: a thread whose port shows the response of a plant to the thread's own stores there."""

from bisect import bisect_right
from collections.abc import Callable, Iterable, Mapping, Sequence
from dataclasses import dataclass

from model.alone import View, own_slot, run_alone
from model.bits import signed, word
from model.effects import Event, Stored
from model.images import Image
from model.ports import OPEN, Ports, Shown
from model.registers import PORT
from model.setups import Setup
from model.world import World

ARRIVES = 4
"""A sample in cycle c knows the stores issued in cycle c - ARRIVES and before."""


@dataclass(frozen=True)
class PortStore:
    """A store at a thread's port: the cycle of its issue, and its word."""

    cycle: int
    word: int


Plant = Callable[[Sequence[PortStore], int], int]
"""The word that a port shows in a cycle, by the stores issued before it, the oldest first."""

Response = Callable[[Sequence[int]], int]
"""The word of a sampled plant after some steps, by the words of the steps."""


def port_stores(events: Iterable[Event], thread: int) -> list[PortStore]:
    """The stores of a thread at its port, among events in the order of their cycles."""
    return [
        PortStore(event.cycle, event.effect.value)
        for event in events
        if event.thread == thread
        and isinstance(event.effect, Stored)
        and event.effect.address == PORT
    ]


def sampled(response: Response, every: int, first: int) -> Plant:
    """A plant that takes a sample every `every` cycles, and shows one word until the next. `first` is the latch before
    the first store."""

    def plant(stores: Sequence[PortStore], cycle: int) -> int:
        times = [step * every for step in range(1, cycle // every + 1)]
        return response([last_word(stores, time, first) for time in times])

    return plant


def last_word(stores: Sequence[PortStore], cycle: int, first: int) -> int:
    """The word of the last store that a sample in a cycle knows."""
    known = bisect_right(stores, cycle - ARRIVES, key=lambda store: store.cycle)
    return stores[known - 1].word if known else first


class Looped(Shown):
    """The words of a thread's loads at its port: the plant's word while the port is present."""

    def __init__(
        self, shown: Shown, plant: Plant, stores: Callable[[], Sequence[PortStore]]
    ) -> None:
        self.unplug, self.inputs, self.device, self.fed = (
            shown.unplug,
            shown.inputs,
            shown.device,
            shown.fed,
        )
        self.plant, self.stores = plant, stores

    def asks_device(self, cycle: int) -> bool:
        return False

    def __call__(self, cycle: int) -> int:
        if self.is_open(cycle):
            return OPEN
        return self.plant(
            [store for store in self.stores() if not self.is_open(store.cycle)], cycle
        )


def loop_world(setup: Setup, image: Image, ports: Ports, plants: Mapping[int, Plant]) -> World:
    """The machine whose threads have these plants at their ports, at cycle 0."""
    world = World(setup, image, ports)

    def stores_of(thread: int) -> Callable[[], Sequence[PortStore]]:
        return lambda: port_stores(
            (turn.event for turn in world.turns if turn.event is not None), thread
        )

    for thread, plant in plants.items():
        world.shown[thread] = Looped(world.shown[thread], plant, stores_of(thread))
    return world


def solo_in_loop(
    setup: Setup, image: Image, ports: Ports, thread: int, plant: Plant, cycles: int
) -> list[Event]:
    """The events of a confined hard thread by itself in the loop with its plant."""
    view = View(setup, image, ports, thread)
    events: list[Event] = []
    view.shown = Looped(view.shown, plant, lambda: port_stores(events, thread))
    run_alone(view, cycles, own_slot(view), put=events.append)
    return events


@dataclass(frozen=True)
class TablePlant:
    """A sampled plant by a table: its word is the entry of the last two words that it took, 0 before them."""

    table: tuple[int, ...]

    def __call__(self, words: Sequence[int]) -> int:
        before, last = ([0, 0] + list(words))[-2:]
        return self.table[(last + 3 * before) % len(self.table)]


@dataclass(frozen=True)
class RecordedPlant:
    """A sampled plant by recorded words: after some steps it shows the word of that number, or the last one."""

    recorded: tuple[int, ...]

    def __call__(self, words: Sequence[int]) -> int:
        return self.recorded[min(len(words), len(self.recorded) - 1)]


def saturated(value: int) -> int:
    """A number as the nearest of 32 bits, signed."""
    return max(-(1 << 31), min((1 << 31) - 1, value))


def lagged(value: int, target: int, bits: int) -> int:
    """A value that approaches a target, after one step of a first-order lag."""
    return saturated(value + (saturated(target - value) >> bits))


@dataclass(frozen=True)
class Motor:
    """A motor of second order, whose load comes in a step: it takes voltages and shows its speed, with 16 bits after the
    binary point."""

    unloaded: int

    def __call__(self, words: Sequence[int]) -> int:
        current = speed = 0
        for step, taken in enumerate(words, 1):
            voltage = saturated(signed(taken) - speed)
            current = lagged(current, voltage, 4)
            speed = lagged(
                speed, saturated(current - (0x4_0000 if step >= self.unloaded else 0)), 6
            )
        return word(speed)
