"""One thread by itself, from its own view of the setup, the image and its port."""

from collections.abc import Callable, Mapping, Sequence

from model.effects import Event
from model.images import DATA, Image
from model.issues import Step, Thread
from model.bits import u32
from model.ports import Ports, Shown
from model.registers import DREGIONS, IREGIONS, MODES, PORT, SLOTS, frame, mode, own_positions, turn
from model.setups import HARD, READ_ONLY, SHARED, Setup
from model.world import RETIRES, Setting, entries


class View:
    """Everything that a confined thread's trace depends on: its code, slots, private memory and port."""

    def __init__(self, setup: Setup, image: Image, ports: Ports, number: int) -> None:
        self.setup, self.number = setup, number
        self.thread = setup.threads[number]
        self.size, self.period = setup.size, setup.period
        self.frame_length, self.own = len(frame(setup.slots)), own_positions(setup.slots, number)
        self.code_owners, self.data_owners = entries(setup.iregions), entries(setup.dregions)
        self.code, self.data = image.scratchpad(0, self.size), image.scratchpad(DATA, self.size)
        self.shown = Shown(self.thread, ports[number])

    def sees(self, owner: int) -> bool:
        return owner in (self.number, READ_ONLY)


class InView:
    """The environment of the thread's issue in a cycle, by its view; `data` is the thread's own memory."""

    def __init__(self, view: View, data: bytearray, cycle: int) -> None:
        self.view, self.data, self.cycle = view, data, cycle
        self.reads_port = False

    def data_owner(self, address: int) -> int | None:
        """The entry of the data region that has an address; None if none has."""
        if not DATA <= address < DATA + self.view.size:
            return None
        return self.view.data_owners[(address - DATA) // (self.view.size // 8)]

    def fetch(self, pc: int) -> int | None:
        if pc >= self.view.size or not self.view.sees(
            self.view.code_owners[pc // (self.view.size // 8)]
        ):
            return None
        return u32(self.view.code, pc)

    def load(self, address: int, width: int) -> int | None:
        if address == PORT and width == 4:
            self.reads_port = self.view.shown.asks_device(self.cycle)
            return self.view.shown(self.cycle)
        if address < DATA:
            return self.fetch(address & ~3)
        owner = self.data_owner(address)
        if owner is None:
            return None
        return (
            u32(self.data, (address & ~3) - DATA)
            if self.view.sees(owner)
            else self.load_of_others()
        )

    def load_of_others(self) -> int | None:
        """A load from a region that isn't in the view."""
        return None

    def may_store(self, address: int, width: int) -> bool:
        return (address == PORT and width == 4) or self.data_owner(address) in (
            self.view.number,
            SHARED,
        )

    def store(self, address: int, width: int, value: int) -> None:
        if self.data_owner(address) == self.view.number:
            self.data[address - DATA : address - DATA + width] = value.to_bytes(width, "little")

    def machine_csrs(self, writes: bool) -> Mapping[int, int] | None:
        return None

    def write_machine_csr(self, csr: int, value: int) -> None:
        raise AssertionError("a view has none of the machine's own registers")


class InWideView(InView):
    """The same for a thread that isn't confined: all code, configuration registers to read with a permit, and the
    foreign words that its loads got in a run, in order."""

    def __init__(self, view: View, data: bytearray, cycle: int, granted: list[int]) -> None:
        super().__init__(view, data, cycle)
        self.granted = granted

    def fetch(self, pc: int) -> int | None:
        return u32(self.view.code, pc) if pc < self.view.size else None

    def load_of_others(self) -> int | None:
        return self.granted.pop(0)

    def machine_csrs(self, writes: bool) -> Mapping[int, int] | None:
        setup = self.view.setup
        if writes or not self.view.thread.permit:
            return None
        return {
            SLOTS: setup.slots,
            MODES: setup.modes,
            DREGIONS: setup.dregions,
            IREGIONS: setup.iregions,
        }


Loaded = Callable[[int], object]
"""A call for each cycle in which the device at the thread's port is read, before the event of the cycle."""


def unread(cycle: int) -> None:
    """The call for reads without a device."""


def run_alone(view: View, cycles: int, is_own: Callable[[int], bool], granted: Sequence[int] | None = None,
              loaded: Loaded = unread, put: Callable[[Event], None] = lambda event: None) -> list[Event]:  # fmt: skip
    """The events of a thread at its own cycles; calls `put` with each. With `granted` the thread isn't confined, and
    these are the foreign words that it loads."""
    thread, data, events = Thread(view.thread.entry), bytearray(view.data), list[Event]()
    words = list(granted or ())
    for cycle in range(cycles - RETIRES):
        now = cycle * view.period
        if not is_own(cycle) or cycle < thread.ready or now < thread.sleep:
            continue
        around = (
            InView(view, data, cycle) if granted is None else InWideView(view, data, cycle, words)
        )
        _, event = Step(thread, view.number, cycle, now, around).issue()
        if around.reads_port:
            loaded(cycle)
        if event is not None:
            events.append(event)
            put(event)
    return events


def own_slot(view: View) -> Callable[[int], bool]:
    """Whether the setup's slots give the thread a cycle."""
    return lambda cycle: view.frame_length > 0 and cycle % view.frame_length in view.own


def solo(view: View, cycles: int) -> list[Event]:
    """The events of a confined hard thread that runs by itself."""
    return run_alone(view, cycles, own_slot(view))


def solo_with_words(view: View, cycles: int, granted: Sequence[int]) -> list[Event]:
    """The events of a hard thread that isn't confined, with the words that its loads got from foreign regions."""
    return run_alone(view, cycles, own_slot(view), granted)


def phased(view: View, settings: Sequence[Setting], cycles: int) -> list[Event]:
    """The events of a confined thread over settings, in each of which it is hard, asleep or not."""

    def is_own(cycle: int) -> bool:
        setting = [each for each in settings if each.cycle <= cycle][-1]
        return (
            turn(setting.slots, cycle) == view.number and mode(setting.modes, view.number) == HARD
        )

    return run_alone(view, cycles, is_own)
