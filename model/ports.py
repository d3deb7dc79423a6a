"""Devices at the ports of threads: their words, their latches, and their calls."""

from bisect import bisect_right

from model.bits import LAST_WORD, word
from model.setups import ThreadSetup

OPEN = LAST_WORD
"""The loaded word if no device is at the port."""


class Device:
    """Shows 0 until its first fed word, and then each fed word from its cycle on; keeps the last word written to it."""

    def __init__(self) -> None:
        self.fed: list[tuple[int, int]] = []
        self.kept = 0

    def base(self, cycle: int) -> int:
        """The word before the first fed one."""
        return 0

    def word_at(self, cycle: int) -> int:
        """The word of a cycle."""
        k = bisect_right(self.fed, cycle, key=lambda pair: pair[0])
        return self.fed[k - 1][1] if k else self.base(cycle)

    def feed(self, at: int, value: int) -> None:
        """Shows a word from a cycle on; raises MemoryError where it refuses to."""
        self.fed = [pair for pair in self.fed if pair[0] < at] + [(at, value)]

    def read(self, cycle: int) -> int:
        return self.word_at(cycle)

    def write(self, value: int) -> None:
        self.kept = value

    def latch(self) -> int:
        """The last word written."""
        return self.kept

    def unplug(self) -> None:
        """Is called when the device is taken away during a run."""


HeldPort = Device
"""The device that the program puts at each port."""


class Wave(Device):
    """A square wave between 0 and 1, of so many cycles a half."""

    def __init__(self, half: int) -> None:
        super().__init__()
        self.half = half

    def base(self, cycle: int) -> int:
        return cycle // self.half % 2


class Counter(Device):
    """Shows the number of the cycle, and can be fed once."""

    def base(self, cycle: int) -> int:
        return word(cycle)

    def feed(self, at: int, value: int) -> None:
        if self.fed:
            raise MemoryError
        super().feed(at, value)


class Called(Device):
    """Counts its calls in a list that is shared, shows 0 and refuses to be fed."""

    def __init__(self, calls: list[str]) -> None:
        super().__init__()
        self.calls = calls

    def feed(self, at: int, value: int) -> None:
        self.calls.append("feed")
        raise MemoryError

    def read(self, cycle: int) -> int:
        self.calls.append("read")
        return 0

    def write(self, value: int) -> None:
        self.calls.append("write")
        super().write(value)

    def latch(self) -> int:
        self.calls.append("latch")
        return super().latch()


class Dropped(Device):
    """Records its unplugging in a shared list."""

    def __init__(self, drops: list[str]) -> None:
        super().__init__()
        self.drops = drops

    def unplug(self) -> None:
        self.drops.append("drop")


class Noted(Device):
    """Notes its calls, after its thread, in a list that is shared, and can be fed so many times."""

    def __init__(self, thread: int, room: float, notes: list[str]) -> None:
        super().__init__()
        self.thread, self.room, self.notes = thread, room, notes

    def feed(self, at: int, value: int) -> None:
        self.notes.append(f"feed {self.thread} {at} {value:08x}")
        if self.room == 0:
            raise MemoryError
        self.room -= 1
        super().feed(at, value)

    def read(self, cycle: int) -> int:
        self.notes.append(f"read {self.thread} {cycle}")
        return super().read(cycle)

    def write(self, value: int) -> None:
        self.notes.append(f"write {self.thread} {value:08x}")
        super().write(value)

    def latch(self) -> int:
        self.notes.append(f"latch {self.thread}")
        return super().latch()

    def unplug(self) -> None:
        self.notes.append(f"drop {self.thread}")


Ports = list[Device | None]
"""The devices at the eight ports."""


class Shown:
    """The words of a thread's loads at its port in each cycle of a run: the setup's inputs, and before them the words
    of the device that was passed in."""

    def __init__(self, thread: ThreadSetup, device: Device | None) -> None:
        self.unplug, self.inputs, self.device = thread.unplug, thread.inputs, device
        self.fed = list(device.fed) if device else []

    def asks_device(self, cycle: int) -> bool:
        """Whether the device that was passed in gives the word."""
        return not self.is_open(cycle) and not (self.inputs and self.inputs[0][0] <= cycle)

    def is_open(self, cycle: int) -> bool:
        """Whether no device is at the port."""
        return self.device is None or (self.unplug is not None and cycle >= self.unplug)

    def __call__(self, cycle: int) -> int:
        if self.device is None or self.is_open(cycle):
            return OPEN
        for words in (self.inputs, self.fed):
            if k := bisect_right(words, cycle, key=lambda pair: pair[0]):
                return words[k - 1][1]
        return self.device.base(cycle)
