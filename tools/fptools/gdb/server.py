"""Answers gdb's packets for a machine."""
from __future__ import annotations

import re
import sys
from dataclasses import dataclass, field
from functools import partial
from typing import Callable

from fptools.files.dump import THREADS
from fptools.gdb.machine import Machine
from fptools.gdb.monitor import Monitor
from fptools.gdb.packets import MOST_BYTES, Connection, Interrupted
from fptools.gdb.registers import REGISTERS, spelled, target_description
from fptools.gdb.runs import RunFailed
from fptools.gdb.stops import Access, Kind, Reason, Stop, Stops, Watch

NAME = "fp_gdb"
OK, NO_SUCH, UNKNOWN = b"OK", b"E01", b""
WRITES = b"E.registers and memory aren't written: the run is the program's"
FEATURES = (
    f"PacketSize={MOST_BYTES:x};QStartNoAckMode+;qXfer:features:read+;qXfer:threads:read+"
    ";vContSupported+;swbreak+;hwbreak+;ReverseStep+;ReverseContinue+"
)
BREAKS = {"0": Kind.SOFTWARE, "1": Kind.HARDWARE}
WATCHES = {"2": Access.WRITE, "3": Access.READ, "4": Access.EITHER}
TRAP, INTERRUPT = 5, 2  # signals
POINT = re.compile(r"[zZ]([0-4]),([0-9a-f]+),([0-9a-f]+)")
TRANSFER = re.compile(r"qXfer:(features|threads):read:([^:]*):([0-9a-f]+),([0-9a-f]+)")
HEXADECIMAL = re.compile("[0-9a-fA-F]{1,16}")
ACTION = re.compile(r"([csr]|[CS][0-9a-f]{2})(?:([0-9a-f]+),([0-9a-f]+))?(?::(-?[0-9a-f]+))?")
NUMBERS = tuple(f"{thread + 1:x}" for thread in range(THREADS))  # of gdb's threads
ANY_THREAD = ("", "0", "-1")
ALL_THREADS = list(range(THREADS))


def refusal(text: str) -> bytes:
    """An answer that gdb shows as an error."""
    return f"E.{text}".encode("utf-8", "replace")


class Ended(Exception):
    """gdb has ended the session; the exception has the last answer."""

    def __init__(self, answer: bytes | None) -> None:
        super().__init__()
        self.answer = answer


class Wrong(ValueError):
    """A packet requests something that doesn't exist."""


@dataclass(frozen=True)
class Resume:
    """How the machine goes on: to a stop, or by issues of a thread while its pc is in a range."""

    step: int | None = None
    start: int = 0
    end: int = 0


@dataclass
class Server:
    """A session with gdb. Thread i of the machine is gdb's thread i + 1."""

    machine: Machine
    monitor: Monitor
    connection: Connection
    stops: Stops = field(init=False)
    thread: int = 0  # whose registers and memory are asked for
    resumed: int = 0  # which is stepped, or stopped last
    last: Stop = Stop(0, 0, Reason.STEP)
    asked: list[int] = field(default_factory=list)  # threads, since gdb has read their list
    before: int = 0  # `resumed` when it read the list

    def __post_init__(self) -> None:
        self.stops = Stops(self.machine)
        events = [(it.cycle, at) for at in range(THREADS) if (it := self.machine.next_event(at))]
        self._stand(Stop(0, min(events)[1] if events else 0, Reason.STEP))

    def serve(self) -> None:
        """Answers packets until gdb ends the session."""
        while True:
            packet = self.connection.receive().decode("latin-1")
            try:
                reply = self.answer(packet)
            except Ended as end:
                if end.answer is not None:
                    self.connection.send(end.answer)
                return
            except ValueError:
                reply = NO_SUCH
            except (RunFailed, OSError) as fault:
                print(f"{NAME}: {fault}", file=sys.stderr)
                reply = refusal(str(fault))
            self.connection.send(reply)
            if packet == "QStartNoAckMode":
                self.connection.acknowledges = False

    def answer(self, packet: str) -> bytes:
        """The answer to a packet; empty for one that isn't known here."""
        exact, known = self._exact(), self._known(packet)
        if packet in exact:
            return exact[packet]()
        head = next((it for it in known if packet.startswith(it)), None)
        return UNKNOWN if head is None else known[head](packet[len(head) :])

    def _exact(self) -> dict[str, Callable[[], bytes]]:
        """The packets without parameters."""
        return {
            "?": lambda: self._reply(self.last),
            "g": self._registers,
            "bs": lambda: self._backwards(self.resumed),
            "bc": lambda: self._backwards(None),
            "c": lambda: self._forwards(Resume()),
            "s": lambda: self._forwards(Resume(self.resumed)),
            "D": lambda: self._end(OK),
            "k": lambda: self._end(None),
            "qC": lambda: f"QC{self.thread + 1:x}".encode(),
            "qAttached": lambda: b"1",
            "qfThreadInfo": lambda: ("m" + ",".join(NUMBERS)).encode(),
            "qsThreadInfo": lambda: b"l",
            "QStartNoAckMode": lambda: OK,
            "vCont?": lambda: b"vCont;c;C;s;S;r",
        }

    def _known(self, packet: str) -> dict[str, Callable[[str], bytes]]:
        """The beginnings of the others, whose answers are given what follows."""
        return {
            "qSupported": lambda _: FEATURES.encode(),
            "qXfer:": self._transfer,
            "qRcmd,": self._monitor,
            "qThreadExtraInfo,": self._described,
            "qSymbol": lambda _: OK,
            "vCont;": lambda text: self._forwards(self._resume(text)),
            "vKill": lambda _: self._end(OK),
            "H": self._select,
            "T": self._is_there,
            "m": self._memory,
            "p": self._register,
            "Z": lambda _: self._point(packet, True),
            "z": lambda _: self._point(packet, False),
            "P": lambda _: WRITES,
            "G": lambda _: WRITES,
            "M": lambda _: WRITES,
        }

    def _end(self, answer: bytes | None) -> bytes:
        raise Ended(answer)

    def _described(self, text: str) -> bytes:
        return self.machine.described(_thread(text)).encode().hex().encode()

    def _is_there(self, text: str) -> bytes:
        """Whether a thread is there. gdb asks so for the thread that its user selects, and a step
        back names none: so the selected one steps. `thread apply all` asks for all, and selects none.
        """
        self.resumed = _thread(text)
        self.asked.append(self.resumed)
        if self.asked in (ALL_THREADS, ALL_THREADS[::-1]):
            self.resumed = self.before
        return OK

    def _registers(self) -> bytes:
        values = self.machine.values(self.thread)
        return "".join(spelled(register, value) for register, value in values).encode()

    def _register(self, text: str) -> bytes:
        number = _number(text)
        if number >= len(REGISTERS):
            return NO_SUCH
        register = REGISTERS[number]
        return spelled(register, self.machine.value(self.thread, register, number)).encode()

    def _memory(self, text: str) -> bytes:
        address, size = (_number(it) for it in text.split(","))
        found = self.machine.memory(self.thread, address, min(size, MOST_BYTES // 2))
        return found.hex().encode() if found or not size else NO_SUCH

    def _select(self, text: str) -> bytes:
        """Hg is for registers and memory, Hc for steps."""
        if text[1:] in ANY_THREAD:
            return OK
        thread = _thread(text[1:])
        if text[0] == "g":
            self.thread = thread
        else:
            self.resumed = thread
        return OK

    def _point(self, packet: str, is_set: bool) -> bytes:
        """Sets or removes a breakpoint or watchpoint. A breakpoint is on a word of the image."""
        found = POINT.match(packet)
        if found is None:
            return UNKNOWN
        address, size = _number(found[2]), _number(found[3])
        if found[1] in WATCHES:
            watch = Watch(WATCHES[found[1]], address, size)
            (self.stops.watches.add if is_set else self.stops.watches.discard)(watch)
            return OK if self.machine.memory(self.thread, address, 1) or not is_set else NO_SUCH
        if is_set and address not in self.machine.code:
            return b"E.no code is at this address"
        point = address, BREAKS[found[1]]
        (self.stops.breakpoints.add if is_set else self.stops.breakpoints.discard)(point)
        return OK

    def _transfer(self, text: str) -> bytes:
        """A part of the target description, or of the list of threads."""
        found = TRANSFER.fullmatch(f"qXfer:{text}")
        if found is None:
            return UNKNOWN
        if found[1] == "features" and found[2] != "target.xml":
            return b"E00"
        document = target_description() if found[1] == "features" else self._threads()
        start, size = _number(found[3]), _number(found[4])
        if found[1] == "threads" and not start:
            self.asked, self.before = [], self.resumed
        part = document[start : start + size]
        return (b"m" if start + size < len(document) else b"l") + part

    def _threads(self) -> bytes:
        threads = (
            f'<thread id="{at + 1:x}" name="T{at}">{self.machine.described(at)}</thread>'
            for at in range(THREADS)
        )
        return "\n".join(["<threads>", *threads, "</threads>"]).encode()

    def _monitor(self, text: str) -> bytes:
        command = bytes.fromhex(text).decode("utf-8", "replace")
        said = self.monitor.answer(command, self.thread).encode().hex()
        most = MOST_BYTES // 2
        for start in range(0, len(said), most):
            self.connection.send(b"O" + said[start : start + most].encode())
        return OK

    def _resume(self, text: str) -> Resume:
        """What the actions of vCont ask for: a step of a thread if one is among them. All threads
        go on in any case, since the time of the machine does."""
        for action in text.split(";"):
            found = ACTION.fullmatch(action)
            if found is None:
                raise Wrong(action)
            if found[1][0] not in "cC":
                thread = self.resumed if (found[4] or "") in ANY_THREAD else _thread(found[4])
                return Resume(thread, *(_number(it) for it in (found[2], found[3]) if it))
        return Resume()

    def _forwards(self, resume: Resume) -> bytes:
        self.resumed = self.resumed if resume.step is None else resume.step
        return self._moved(lambda: self._steps(resume), Reason.END, self.machine.end)

    def _steps(self, resume: Resume) -> Stop | None:
        """The stop of steps through a range, or of a run."""
        while True:
            stop = self.stops.forwards(resume.step)
            if stop is None or stop.reason is not Reason.STEP:
                return stop
            self.machine.now = stop.cycle
            pc = self.machine.pc(stop.thread)
            if pc is None or not resume.start <= pc < resume.end:
                return stop

    def _backwards(self, step: int | None) -> bytes:
        return self._moved(lambda: self.stops.backwards(step), Reason.BEGIN, 0)

    def _moved(self, search: Callable[[], Stop | None], at_end: Reason, end: int) -> bytes:
        """Moves the machine to where a search ends, and says so. If `monitor cycle` has asked for a
        place, it goes there: as after Ctrl-C, so that gdb doesn't go on by itself."""
        if self.machine.goal is not None:
            search = partial(Stop, self.machine.goal, self.resumed, Reason.INTERRUPT)
            self.machine.goal = None
        start = self.machine.now
        self.connection.is_running = True
        try:
            stop = self._found(search, at_end, end)
            # What takes long is done here, where gdb waits as long as it takes.
            self.machine.move(stop.cycle, stop.thread)
        except Interrupted:
            stop = Stop(start, self.resumed, Reason.INTERRUPT)
        except RunFailed:
            self.machine.now = start
            raise
        finally:
            self.connection.is_running = False
        self._stand(stop)
        return self._reply(stop)

    def _found(self, search: Callable[[], Stop | None], at_end: Reason, end: int) -> Stop:
        """Where a search ends; after Ctrl-C, as far as it got."""
        try:
            return search() or Stop(end, self.resumed, at_end)
        except Interrupted:
            return Stop(self.machine.now, self.resumed, Reason.INTERRUPT)

    def _stand(self, stop: Stop) -> None:
        self.machine.now = stop.cycle
        self.thread = self.resumed = stop.thread
        self.last = stop

    def _reply(self, stop: Stop) -> bytes:
        signal = INTERRUPT if stop.reason is Reason.INTERRUPT else TRAP
        reasons = {
            Reason.END: "replaylog:end;",
            Reason.BEGIN: "replaylog:begin;",
            Reason.BREAK: f"{stop.kind.value}:;",
        }
        why = reasons.get(stop.reason, "")
        if stop.watch is not None:
            why = f"{stop.watch.access.value}:{stop.watch.address:x};"
        return f"T{signal:02x}thread:{stop.thread + 1:x};{why}".encode()


def _number(text: str) -> int:
    """A number of a packet."""
    if HEXADECIMAL.fullmatch(text) is None:
        raise Wrong(text)
    return int(text, 16)


def _thread(text: str) -> int:
    """The thread of the machine by gdb's number."""
    thread = _number(text) - 1
    if thread not in range(THREADS):
        raise Wrong(text)
    return thread
