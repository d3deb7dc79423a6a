"""The changes of an issue, and the lines of a trace."""

from collections.abc import Iterable
from dataclasses import dataclass


@dataclass(frozen=True)
class Effect:
    """No visible change."""

    def __str__(self) -> str:
        return "-"


@dataclass(frozen=True)
class Register(Effect):
    """A register gets a value."""

    rd: int
    value: int

    def __str__(self) -> str:
        return f"x{self.rd:02d}={self.value:08x}"


@dataclass(frozen=True)
class Stored(Effect):
    """Bytes are stored."""

    address: int
    size: int
    value: int

    def __str__(self) -> str:
        return f"[{self.address:08x}]/{self.size}={self.value:08x}"


@dataclass(frozen=True)
class Written(Effect):
    """A CSR gets a value, and a register the old one."""

    csr: int
    value: int
    rd: int
    old: int

    def __str__(self) -> str:
        text = f"csr {self.csr:03x}={self.value:08x}"
        return f"{Register(self.rd, self.old)} {text}" if self.rd else text


@dataclass(frozen=True)
class Trapped(Effect):
    """The thread continues at its handler."""

    cause: int
    target: int

    def __str__(self) -> str:
        return f"trap {self.cause} -> {self.target:08x}"


@dataclass(frozen=True)
class Asleep(Effect):
    """The thread sleeps."""

    def __str__(self) -> str:
        return "wait"


NOTHING = Effect()


@dataclass(frozen=True)
class Event:
    """An issue that doesn't spin, with its changes."""

    cycle: int
    thread: int
    pc: int
    word: int
    effect: Effect

    def line(self) -> bytes:
        """The event's line of a trace."""
        return f"{self.cycle:10d} {self.pc:08x} {self.word:08x} {self.effect}\n".encode()


def trace(events: Iterable[Event]) -> bytes:
    return b"".join(event.line() for event in events)
