"""The tables of commands: devices and files, and command lines over them with their answers; commands.txt describes
their form."""

import math
from collections.abc import Iterator, Sequence
from dataclasses import dataclass, field

from model.commands import MemFiles, MemSink, Status, flexpret
from model.dump import dump
from model.graphs import Graph, Part, read_routines
from model.images import read_image
from model.ports import Called, Counter, Device, Dropped, HeldPort, Noted, Ports, Wave
from model.questions import ask
from model.setups import read_setup
from model.tables.forms import ZERO_WORD, Row, repeated, table
from model.tables.run_rows import walked
from model.world import RETIRES, World

EIGHT_ZERO_WORDS = f" {ZERO_WORD}" * 8


@dataclass
class Command:
    """A command line over the present files, with the calls that fail, and its answer; a part that isn't compared is
    None. `dump` is the state of a machine that a failing put has stopped."""

    line: str
    files: dict[str, bytes]
    status: int
    failing_fetch: int | None
    failing_put: tuple[int, int] | None
    text: bytes = b""
    left: str | None = None
    calls: str | None = None
    dump: bytes | None = None

    def words(self) -> list[str]:
        return self.line.split()

    def has_image(self) -> bool:
        return self.line.startswith(("asm", "elf"))


@dataclass
class Case:
    """The devices at the eight ports, and commands."""

    name: str
    ports: str = ""
    files: dict[str, bytes] = field(default_factory=dict)
    commands: list[Command] = field(default_factory=list)


# ---------------------------------------------------------------- reading


def plain(lines: Sequence[str]) -> bytes:
    """Lines as they are; a backslash at an end isn't written, and no line end behind it."""
    return "".join(line[:-1] if line.endswith("\\") else f"{line}\n" for line in lines).encode()


def digits(lines: Sequence[str]) -> bytes:
    return b"".join(map(repeated, lines))


def shortened(lines: Sequence[str]) -> bytes:
    """The lines of a dump: a full stop is eight zeros, a star eight words of zeros."""
    return (
        "".join(f"{line}\n" for line in lines)
        .replace(".", ZERO_WORD)
        .replace("*", EIGHT_ZERO_WORDS)
        .encode()
    )


def trace_lines(lines: Sequence[str]) -> bytes:
    """The lines of a trace, or of settings, whose cycles have no spaces before them."""
    return shortened([line.rjust(len(line) + 10 - line.index(" ")) for line in lines])


def text_of(command: Command, lines: Sequence[str]) -> bytes:
    """The text of a command, by how it is written."""
    if command.status != Status.OK:
        return plain(lines)
    if command.has_image():
        return digits(lines)
    if command.line.startswith("dump"):
        return shortened(lines)
    return (
        trace_lines(lines) if command.line.startswith(("run", "solo", "phases")) else plain(lines)
    )


def begun(head: str, line: str, files: dict[str, bytes]) -> Command:
    """The command of a head as `7 fetch 0` or `8 put 3 5`, and a line."""
    status, *fails = head.split()
    fetch = int(fails[1]) if fails[:1] == ["fetch"] else None
    put = (int(fails[1]), int(fails[2])) if fails[:1] == ["put"] else None
    return Command(line, dict(files), int(status), fetch, put)


def take(case: Case, heading: str, lines: Sequence[str]) -> None:
    """Reads the lines under a heading."""
    head, sign, line = heading.partition("$ ")
    if sign:
        case.commands.append(begun(head, line, case.files))
        case.commands[-1].text = text_of(case.commands[-1], lines)
        return
    kind, _, name = heading.partition(" ")
    match kind:
        case "text":
            case.files[name] = plain(lines)
        case "bytes":
            case.files[name] = digits(lines)
        case "written":
            case.files[name] = case.commands[-1].text + plain(lines)
        case "calls":
            case.commands[-1].calls = "".join(f"{each}\n" for each in lines)
        case "dump":
            case.commands[-1].dump = shortened(lines)
        case "left":
            case.commands[-1].left = lines[0]


def cases(name: str) -> list[Case]:
    """The cases of a table."""
    found: list[Case] = []
    for part in ("\n" + table(name).read_text()).split("\n=== ")[1:]:
        head, *parts = part.removesuffix("\n").split("\n--- ")
        title, ports = head.split("\n")
        found.append(Case(title, ports))
        for each in parts:
            heading, *lines = each.split("\n")
            take(found[-1], heading, lines)
    return found


# ---------------------------------------------------------------- answering


@dataclass
class Bench:
    """Devices of some kinds, whose calls are recorded, with the calls of files and sink."""

    kinds: list[str]
    notes: list[str] = field(default_factory=list)
    drops: list[str] = field(default_factory=list)
    counted: list[str] = field(default_factory=list)

    def ports(self) -> Ports:
        return [self._device(thread, kind) for thread, kind in enumerate(self.kinds)]

    def _device(self, thread: int, kind: str) -> Device | None:
        match kind[0], kind[1:]:
            case "h", _:
                return HeldPort()
            case "w", half:
                return Wave(int(half))
            case "s", _:
                return Counter()
            case "d", _:
                return Dropped(self.drops)
            case "c", _:
                return Called(self.counted)
            case "+", room:
                return Noted(thread, int(room) if room else math.inf, self.notes)
        return None

    def left(self, ports: Ports) -> str:
        """The state of the ports after a command."""
        called = len(self.counted)
        shown = [f"{port.latch():08x}/{port.read(0):08x}" if port else "-" for port in ports]
        text = f"{' '.join(shown)} dropped {len(self.drops)} {self.kinds.count('drop')}"
        return text + (f" called {called}" if "count" in self.kinds else "")


def wrong(case: Case, command: Command) -> str | None:
    """The parts of the model's answer that differ from the table's."""
    bench = Bench(case.ports.split())
    ports = bench.ports()
    files = MemFiles(command.files, {command.failing_fetch} - {None}, bench.notes)  # type: ignore[arg-type]
    sink = MemSink(dict([command.failing_put] if command.failing_put else []), bench.notes)
    status = flexpret(command.words(), files, sink, ports)
    calls = "".join(f"{note}\n" for note in bench.notes)
    for name, wanted, found in (
        ("status", command.status, status),
        ("text", command.text, sink.bytes),
        ("ports", command.left, bench.left(ports)),
        ("calls", command.calls, calls),
        ("dump", command.dump, stopped_dump(command, sink) if command.dump else None),
    ):
        if wanted is not None and wanted != found:
            return f"{name}: the model has {found!r} for {wanted!r}"
    return None if are_lines(command, sink) else "a put isn't a line"


def are_lines(command: Command, sink: MemSink) -> bool:
    """Whether each whole put is a line, or the only one an image."""
    whole = sink.puts[:-1] if command.failing_put else sink.puts
    is_image = command.has_image() and len(sink.puts) == 1
    return is_image or all(put.endswith(b"\n") and put.count(b"\n") == 1 for put in whole)


def stopped_dump(command: Command, sink: MemSink) -> bytes | None:
    """The state of the machine after the last put of a run has failed."""
    question = ask(command.words())
    if question is None:
        return None
    setup = read_setup(command.files[question.file])
    image = read_image(command.files[setup.image], setup.size)
    world, events = World(setup, image, held_ports()), 0
    while events < len(sink.puts):
        event = world.step().event
        events += event is not None and event.thread == question.thread
    return b"".join(dump(setup, image, held_ports(), world.at + RETIRES))


def held_ports() -> Ports:
    return [HeldPort() for _ in range(8)]


def call_walks() -> Iterator[Row]:
    """The bounds of calls.txt, by all paths with matching calls and returns."""
    for case in cases("calls.txt"):
        for command in case.commands:
            question = ask(command.words())
            if question is None or command.status != Status.OK:
                continue
            setup = read_setup(command.files[question.file])
            image = read_image(command.files[setup.image], setup.size)
            routines = read_routines(command.files[question.other_file], setup.size)
            graph = Graph(image.word, Part(question.start, question.end), routines, setup.loops)
            yield walked(
                graph, setup.slots, question.thread, command.text.decode().strip(), case.name
            )
