"""The commands over files, a sink and eight ports: the text that is written, in which puts, and the status."""

import sys
from collections.abc import Callable, Iterator, Sequence
from dataclasses import dataclass, field
from enum import IntEnum
from typing import Protocol

from model import assembler, executables, graphs, own_run, setups
from model.alone import Loaded, View, own_slot, run_alone, unread
from model.assembler import SourceFault, assemble
from model.bounds import Bounds
from model.dump import dump
from model.effects import Event
from model.executables import ElfFault, read_elf
from model.graphs import Graph, Part, RoutinesFault, read_routines
from model.images import MOST_BYTES, Image, ImageFault, read_image
from model.ports import HeldPort, Ports
from model.questions import Question, ask

from model.refusals import (
    BoundNo, SectionNo, bound_line, image_line, routines_line, section_line, setup_line, source_line,
)  # fmt: skip
from model.registers import own_positions
from model.setups import HARD, THREADS, Setup, SetupFault, read_setup
from model.world import BUBBLE, RETIRES, PortCall, Setting, World

Bytes = bytes

LINE_BYTES = 60
"""The most bytes of a trace's line."""

MOST_BOUND = (1 << 64) - 1

TAKEN_AWAY = 3
"""The number of cycles from the unplugging of a port to its removal, before the issue of that cycle reaches it."""

AT_PORT = 3
"""The number of cycles from an issue to its access to the port."""


class Status(IntEnum):
    """The end of a command."""

    OK = 0
    DIFFERS = 1
    USAGE = 2
    SETUP = 3
    IMAGE = 4
    SOURCE = 5
    BOUND = 6
    READ = 7
    WRITE = 8
    NO_MEMORY = 9
    ROUTINES = 10


class ReadFailed(Exception):
    """A file doesn't exist, or can't be read."""


class PutFailed(Exception):
    """The sink doesn't take all bytes."""


class Refused(Exception):
    """A command ends with a line and a status that isn't OK."""

    def __init__(self, status: Status, line: bytes) -> None:
        super().__init__(status)
        self.status, self.line = status, line


class Files(Protocol):
    def fetch(self, name: str, most: int) -> bytes:
        """The bytes of a file, at most `most` and one more; raises ReadFailed."""


class Sink(Protocol):
    def put(self, data: bytes) -> None:
        """Takes bytes; raises PutFailed."""


@dataclass
class MemFiles:
    """Files in memory. A call whose number is in `failing` fails; calls are recorded."""

    names: dict[str, bytes]
    failing: set[int] = field(default_factory=set)
    notes: list[str] = field(default_factory=list)
    calls: int = 0

    def fetch(self, name: str, most: int) -> bytes:
        self.notes.append(f"fetch {name} {most}")
        self.calls += 1
        if self.calls - 1 in self.failing or name not in self.names:
            raise ReadFailed
        return self.names[name][: most + 1]


class RealFiles:
    """The system's files."""

    def fetch(self, name: str, most: int) -> bytes:
        try:
            with open(name, "rb") as file:
                return file.read(most + 1)
        except (OSError, ValueError):
            raise ReadFailed from None


@dataclass
class MemSink:
    """A sink in memory. A call whose number is in `failing` takes that many bytes and fails; calls are recorded."""

    failing: dict[int, int] = field(default_factory=dict)
    notes: list[str] = field(default_factory=list)
    puts: list[Bytes] = field(default_factory=list)

    @property
    def bytes(self) -> Bytes:
        """All bytes that were put."""
        return b"".join(self.puts)

    def put(self, data: Bytes) -> None:
        self.notes.append(f"put {len(data)}")
        taken = self.failing.get(len(self.puts))
        self.puts.append(data[:taken])
        if taken is not None:
            raise PutFailed


class OutSink:
    """Standard output."""

    def put(self, data: bytes) -> None:
        try:
            sys.stdout.buffer.write(data)
            sys.stdout.buffer.flush()
        except OSError:
            raise PutFailed from None


@dataclass
class Call:
    """A command with its files, sink and ports. Each method writes the text of its command, or raises its end."""

    question: Question
    files: Files
    put: Callable[[bytes], None]
    ports: Ports

    def asm(self) -> None:
        try:
            self.put(assemble(self.files.fetch(self.question.file, assembler.MOST_BYTES)).written())
        except SourceFault as fault:
            raise Refused(Status.SOURCE, source_line(fault.line, fault.code)) from None

    def elf(self) -> None:
        try:
            self.put(
                read_elf(self.files.fetch(self.question.file, executables.MOST_BYTES)).written()
            )
        except ElfFault as fault:
            raise Refused(Status.IMAGE, image_line(fault.code, fault.offset)) from None

    def selfrun(self) -> None:
        for line in own_run.lines(self.question.number):
            self.put(line)

    def run(self) -> None:
        def retire(event: Event) -> None:
            if event.thread == self.question.thread:
                self.put(event.line())

        setup, image = self.machine()
        self.over_machine(setup, image, retire)

    def phases(self) -> None:
        setup, image = self.machine()
        settings = [Setting(0, setup.slots, setup.modes)]

        def retire(event: Event) -> None:
            if setting := settings[-1].after(event):
                settings.append(setting)
                self.put(setting.line())

        self.over_machine(setup, image, retire, lambda: self.put(settings[0].line()))

    def dump(self) -> None:
        setup, image = self.machine()
        lines = dump(setup, image, list(self.ports), self.question.cycles)
        self.over_machine(setup, image, lambda event: None)
        for line in lines:
            words = line.split()
            port = self.ports[int(words[0][1:])] if words[1:2] == [b"latch"] else None
            if port is not None:
                port.latch()
            self.put(line)

    def solo(self) -> None:
        self.alone(lambda event: self.put(event.line()))

    def check(self) -> None:
        setup, image = self.machine()
        self.check_section(setup)
        given = self.files.fetch(self.question.other_file, LINE_BYTES * self.question.cycles)
        lines: list[bytes] = []
        self.alone_in(setup, image, lambda event: lines.append(event.line()))
        defined = b"".join(lines)
        if given != defined:
            number = 1 + given[: first_difference(given, defined)].count(b"\n")
            raise Refused(Status.DIFFERS, f"differs line {number}\n".encode())
        self.put(b"same\n")

    def bound(self) -> None:
        self.bound_of(lambda setup: [])

    def calls(self) -> None:
        def routines(setup: Setup) -> list[Part]:
            data = self.files.fetch(self.question.other_file, graphs.MOST_ROUTINES_BYTES)
            try:
                return read_routines(data, setup.size)
            except RoutinesFault as fault:
                raise Refused(Status.ROUTINES, routines_line(fault.line, fault.code)) from None

        self.bound_of(routines)

    # ------------------------------------------------------------ parts of these

    def machine(self) -> tuple[Setup, Image]:
        """The setup of the command, and its image."""
        try:
            setup = read_setup(self.files.fetch(self.question.file, setups.MOST_BYTES))
            return setup, read_image(
                self.files.fetch(setup.image, MOST_BYTES[setup.size]), setup.size
            )
        except SetupFault as fault:
            raise Refused(Status.SETUP, setup_line(fault.code, fault.path)) from None
        except ImageFault as fault:
            raise Refused(Status.IMAGE, image_line(fault.code, fault.offset)) from None

    def check_section(self, setup: Setup) -> None:
        code = section_refusal(setup, self.question)
        if code is not None:
            raise Refused(Status.SETUP, section_line(code))

    def over_machine(self, setup: Setup, image: Image, retire: Callable[[Event], None],
                     begin: Callable[[], None] = lambda: None) -> None:  # fmt: skip
        """Runs the machine with the ports, which it feeds first, and calls `retire` with each event as it retires."""
        world = World(setup, image, list(self.ports))
        feed(setup, self.ports)
        begin()
        for cycle in cycles_of(world, self.question.cycles):
            unplug(setup, self.ports, cycle)
            if cycle >= AT_PORT:
                call_port(self.ports, world.turns[cycle - AT_PORT].port)
            event = world.turns[cycle - RETIRES].event if cycle >= RETIRES else None
            if event is not None:
                retire(event)

    def alone(self, put: Callable[[Event], None]) -> None:
        setup, image = self.machine()
        self.check_section(setup)
        self.alone_in(setup, image, put)

    def alone_in(self, setup: Setup, image: Image, put: Callable[[Event], None]) -> None:
        """Runs the thread by itself, reading the device at its port, and calls `put` with each event."""
        thread = self.question.thread
        port = self.ports[thread]
        view = View(setup, image, list(self.ports), thread)
        loaded: Loaded = port.read if port else unread
        run_alone(view, self.question.cycles, own_slot(view), loaded=loaded, put=put)

    def bound_of(self, routines: Callable[[Setup], list[Part]]) -> None:
        """The bound of the section, with the routines that a function returns."""
        setup, image = self.machine()
        self.check_section(setup)
        section = Part(self.question.start, self.question.end)
        graph = Graph(image.word, section, routines(setup), setup.loops)
        refusal = graph.refusal()
        if refusal is not None:
            raise Refused(Status.BOUND, bound_line(*refusal))
        bound = Bounds(graph, setup.slots, self.question.thread).largest_cost()
        if bound > MOST_BOUND:
            shown = bound if self.question.command == "bound" else MOST_BOUND + 1
            raise Refused(Status.BOUND, bound_line(BoundNo.Overflow, shown))
        self.put(f"bound {bound}\n".encode())


def section_refusal(setup: Setup, question: Question) -> SectionNo | None:
    """Why a thread, or a section of its code, isn't accepted."""
    thread, start, end = setup.threads[question.thread], question.start, question.end
    if thread.mode != HARD:
        return SectionNo.NotHard
    if question.command in ("solo", "check"):
        return None if thread.confined else SectionNo.NotConfined
    if not own_positions(setup.slots, question.thread):
        return SectionNo.NoSlot
    if start >= end:
        return SectionNo.Order
    if start % 4 or end % 4:
        return SectionNo.Misaligned
    return SectionNo.Outside if end > setup.size else None


def cycles_of(world: World, end: int) -> Iterator[int]:
    """Does the cycles up to `end`, and yields the number of each. Of cycles in which all threads sleep, with nothing in
    the pipeline, it yields only the last one."""
    while world.at < end:
        world.step()
        yield world.at - 1
        if all(turn is BUBBLE for turn in world.turns[-RETIRES:]):
            before = world.at
            world.skip_sleep(end)
            if world.at > before:
                yield world.at - 1


def feed(setup: Setup, ports: Ports) -> None:
    """Feeds the inputs of each thread to its device."""
    for thread, port in zip(setup.threads, ports):
        for at, value in thread.inputs:
            if port is not None:
                port.feed(at, value)


def unplug(setup: Setup, ports: Ports, cycle: int) -> None:
    """Removes the devices that are gone for the issues that reach the ports in a cycle."""
    for number, (thread, port) in enumerate(zip(setup.threads, ports)):
        if port is not None and thread.unplug is not None and cycle >= thread.unplug + TAKEN_AWAY:
            port.unplug()
            ports[number] = None


def call_port(ports: Ports, call: PortCall | None) -> None:
    """Reads or writes the device that an issue accesses."""
    port = ports[call.thread] if call else None
    if call is None or port is None:
        return
    if call.stored is None:
        port.read(call.cycle)
    else:
        port.write(call.stored)


def first_difference(one: bytes, other: bytes) -> int:
    """The index of the first byte that differs, or that one of them lacks."""
    same = (k for k, (a, b) in enumerate(zip(one, other)) if a != b)
    return next(same, min(len(one), len(other)))


def answered(call: Call) -> Status:
    """Does a command, and writes the line of a refusal."""
    commands: dict[str, Callable[[], None]] = {
        "run": call.run, "dump": call.dump, "phases": call.phases, "solo": call.solo, "check": call.check,
        "bound": call.bound, "calls": call.calls, "asm": call.asm, "elf": call.elf, "selfrun": call.selfrun,
    }  # fmt: skip
    try:
        commands[call.question.command]()
    except Refused as refused:
        call.put(refused.line)
        return refused.status
    return Status.OK


def flexpret(words: Sequence[str], files: Files, sink: Sink, ports: Ports) -> Status:
    """Answers a command line over files, a sink and eight ports, which are left as the command leaves them."""
    question = ask(words)
    if question is None:
        return Status.USAGE
    try:
        return answered(Call(question, files, sink.put, ports))
    except ReadFailed:
        return Status.READ
    except PutFailed:
        return Status.WRITE
    except MemoryError:
        return Status.NO_MEMORY


def answer(
    words: Sequence[str], files: dict[str, bytes], ports: Ports | None = None
) -> tuple[Status, bytes]:
    """The status and the text of a command over files in memory, with devices of the program's kind."""
    sink = MemSink()
    status = flexpret(words, MemFiles(files), sink, ports or [HeldPort() for _ in range(THREADS)])
    return status, sink.bytes
