"""The visible state of the machine after a number of cycles: the pipeline, and state that is some cycles old."""

from collections.abc import Iterator

from model.images import DATA, Image
from model.issues import Thread
from model.bits import u32
from model.ports import Ports
from model.registers import DREGIONS, IREGIONS, MCAUSE, MEPC, MODES, MSCRATCH, MTVEC, SLOTS
from model.setups import THREADS, Setup
from model.world import BUBBLE, RETIRES, Kind, Turn, World

ROW = 32
"""The bytes of data that a line shows."""


def is_unplugged(setup: Setup, ports: Ports, number: int, cycles: int) -> bool:
    """Whether no device is at a thread's port after a number of cycles."""
    unplug = setup.threads[number].unplug
    return ports[number] is None or (unplug is not None and cycles >= unplug + RETIRES)


def turn_text(turn: Turn) -> str:
    """A turn in one of the stages after the first."""
    if turn.kind == Kind.BUBBLE:
        return "-"
    shown = "flushed" if turn.kind == Kind.FLUSHED else f"{turn.pc:08x} {turn.word:08x}"
    return f"T{turn.thread} {shown}"


def stage_lines(world: World, cycles: int) -> Iterator[str]:
    """The five stages, with the turns of the last five cycles."""
    turns = {
        stage: world.turns[cycles - k] if cycles >= k else BUBBLE
        for k, stage in enumerate("FDEMW", 1)
    }
    yield "F -" if turns["F"].kind == Kind.BUBBLE else f"F T{turns['F'].thread}"
    for stage in "DEMW":
        yield f"{stage} {turn_text(turns[stage])}"


def register_lines(number: int, x: list[int]) -> Iterator[str]:
    for k in range(0, 32, 8):
        yield f"T{number} x{k:02d}" + "".join(f" {value:08x}" for value in x[k : k + 8])


def timer_line(number: int, thread: Thread) -> str:
    armed = "-" if thread.armed is None else f"{thread.armed:016x}"
    return f"T{number} armed {armed} sleep {thread.sleep:016x} high {thread.high:08x}"


def data_lines(data: bytes) -> Iterator[str]:
    for k in range(0, len(data), ROW):
        if any(data[k : k + ROW]):
            yield f"[{DATA + k:08x}]" + "".join(
                f" {u32(data, at):08x}" for at in range(k, k + ROW, 4)
            )


class Seen:
    """The visible state of the machine: registers up to the issues of cycle n - 5, data and latches up to those of n -
    4, and the rest up to those of n - 3."""

    def __init__(self, setup: Setup, image: Image, ports: Ports, cycles: int) -> None:
        world = World(setup, image, ports)
        world.run_to(cycles - 4)
        self.x = [list(thread.x) for thread in world.threads]
        world.run_to(cycles - 3)
        self.data, self.latches = bytes(world.data), list(world.latches)
        world.run_to(cycles - 2)
        self.csrs = dict(world.csrs)
        self.late = [
            Thread(0, csrs=dict(t.csrs), armed=t.armed, high=t.high, sleep=t.sleep)
            for t in world.threads
        ]
        self.world = world.run_to(cycles)
        self.open = [is_unplugged(setup, ports, number, cycles) for number in range(THREADS)]

    def lines(self) -> Iterator[str]:
        yield f"cycles {self.world.at}"
        yield from stage_lines(self.world, self.world.at)
        for name, csr in (
            ("slots", SLOTS),
            ("modes", MODES),
            ("dregions", DREGIONS),
            ("iregions", IREGIONS),
        ):
            yield f"{name} {self.csrs[csr]:08x}"
        for number in range(THREADS):
            yield from self.thread_lines(number)
        yield from data_lines(self.data)

    def thread_lines(self, number: int) -> Iterator[str]:
        late = self.late[number]
        yield from register_lines(number, self.x[number])
        yield f"T{number} csr" + "".join(
            f" {late.csrs[csr]:08x}" for csr in (MTVEC, MSCRATCH, MEPC, MCAUSE)
        )
        yield timer_line(number, late)
        yield f"T{number} latch {'open' if self.open[number] else f'{self.latches[number]:08x}'}"


def dump(setup: Setup, image: Image, ports: Ports, cycles: int) -> list[bytes]:
    """The lines of the dump, each with its line feed."""
    return [f"{line}\n".encode() for line in Seen(setup, image, ports, cycles).lines()]
