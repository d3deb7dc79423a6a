"""Reads each form of a view back, and compares it with the cycles of the executable model."""

from collections.abc import Iterator, Sequence
from dataclasses import dataclass

from fptools.view.rows import HEAD, STAGES, Row, State, ThreadState, rows_of

from dev.fuzz import kanata

from model.images import Image
from model.ports import Device, Ports
from model.registers import MODES, SLOTS
from model.registers import turn as slot_of
from model.setups import NO_SLOT, SOFT_SLOT, THREADS, Setup
from model.world import Kind, Turn, World

UNITS_LATE, LATCH_LATE = 3, 4
"""The lags of a unit and of a latch: at a cycle's start they show the effects of issues that are at least so many cycles old."""

INPUT_GONE, LATCH_GONE = 0, 4
"""The cycles from the unplugging of a port until it reads as ones, and until its latch is gone."""

OPEN = (1 << 32) - 1


# ---------------------------------------------------------------- the model's cycles


@dataclass(frozen=True)
class Cycle:
    """A cycle: the state at its start, and the turn that it picks."""

    number: int
    time: int
    slots: int
    state: State
    turn: Turn

    def slot(self) -> str:
        entry = slot_of(self.slots, self.number)
        return {NO_SLOT: "-", SOFT_SLOT: "S"}.get(entry, f"T{entry}")

    def thread(self) -> int | None:
        return None if self.turn.kind == Kind.BUBBLE else self.turn.thread

    def is_flushed(self) -> bool:
        return self.turn.kind == Kind.FLUSHED

    def is_donated(self) -> bool:
        """Whether the turn is one of another thread's slot."""
        return self.thread() is not None and self.slot() not in ("S", f"T{self.thread()}")

    def outcome(self) -> str:
        """The outcome of an issue."""
        return str(self.turn.event.effect) if self.turn.event else "held"


@dataclass(frozen=True)
class Held:
    """The model's state before a cycle."""

    slots: int
    modes: int
    sleeps: Sequence[int]
    armed: Sequence[int | None]
    latches: Sequence[int | None]


def held_of(world: World) -> Held:
    threads = world.threads
    slots, modes = (world.csrs[csr] for csr in (SLOTS, MODES))
    return Held(
        slots, modes, [t.sleep for t in threads], [t.armed for t in threads], list(world.latches)
    )


def is_gone(unplug: int | None, cycle: int, late: int) -> bool:
    return unplug is not None and cycle >= unplug + late


class Run:
    """A run of the model, with the state of every cycle."""

    def __init__(self, setup: Setup, image: Image, count: int) -> None:
        ports: Ports = [Device() for _ in range(THREADS)]
        self.setup, self.world = setup, World(setup, image, ports)
        self.held: list[Held] = []
        self.cycles = [self._cycle(number) for number in range(count)]

    def _cycle(self, number: int) -> Cycle:
        self.held.append(held_of(self.world))
        units, latches = (
            self.held[max(number + 1 - UNITS_LATE, 0)],
            self.held[max(number + 1 - LATCH_LATE, 0)].latches,
        )
        time = number * self.setup.period
        threads = tuple(
            ThreadState(
                units.modes >> 2 * k & 1 == 1 or time < units.sleeps[k],
                units.armed[k],
                None if is_gone(thread.unplug, number, LATCH_GONE) else latches[k],
                OPEN if is_gone(thread.unplug, number, INPUT_GONE) else self.shown(k, number),
            )
            for k, thread in enumerate(self.setup.threads)
        )
        return Cycle(number, time, units.slots, State(units.modes, threads), self.world.step())

    def shown(self, thread: int, cycle: int) -> int:
        """The input of a thread's port while it is plugged in."""
        return next(
            (word for at, word in reversed(self.setup.threads[thread].inputs) if at <= cycle), 0
        )


# ---------------------------------------------------------------- the forms


@dataclass(frozen=True)
class Window:
    """The cycles that are shown, and the four before them."""

    cycles: Sequence[Cycle]
    first: int
    end: int
    period: int

    def shown(self) -> Sequence[Cycle]:
        return self.cycles[self.first : self.end]

    def __len__(self) -> int:
        return self.end - self.first


class Texts:
    """The texts of words at their addresses, as the view gave them."""

    def __init__(self) -> None:
        self.of: dict[tuple[int, int], str] = {}

    def turn(self, cycle: Cycle) -> str:
        turn = cycle.turn
        if turn.kind == Kind.BUBBLE:
            return "-"
        if cycle.is_flushed():
            return f"T{turn.thread} flushed"
        text = self.of.get((turn.pc, turn.word), "?")
        return f"T{turn.thread} {turn.pc:08x} {turn.word:08x} {text:<26} {cycle.outcome()}"

    def learn(self, row: Row, cycle: Cycle) -> None:
        """Takes an instruction's text."""
        if cycle.turn.kind == Kind.ISSUE and row.turn is not None:
            self.of.setdefault((cycle.turn.pc, cycle.turn.word), row.turn.text)


Wrong = Iterator[tuple[str, str]]
"""A difference: its place, and both values."""


def differs(where: str, is_: object, wanted: object) -> Wrong:
    if is_ != wanted:
        yield where, f"{is_!r} and not {wanted!r}"


def stage_of(cycles: Sequence[Cycle], number: int) -> str:
    if number < 0 or cycles[number].thread() is None:
        return " . "
    return f' {cycles[number].thread()}{"x" if cycles[number].is_flushed() else " "}'


def wrong_text(shown: str, window: Window, texts: Texts) -> Wrong:
    lines = shown.split("\n")
    yield from differs("text head", lines[0], f"{HEAD}\t{window.period}")
    yield from differs("text length", (len(lines), lines[-1]), (len(window) + 2, ""))
    last: State | None = None
    for line, row, cycle in zip(lines[1:], rows_of(lines[:-1]), window.shown()):
        texts.learn(row, cycle)
        stages = "".join(stage_of(window.cycles, cycle.number - k) for k in range(5))
        begin = f"{cycle.number:>10} {cycle.time:>13} {cycle.slot():<4}"
        yield from differs("text line", row.line, f"{begin} {stages} {texts.turn(cycle)}")
        is_new = last != cycle.state
        yield from differs("text state", ("\t" in line, row.state), (is_new, cycle.state))
        last = cycle.state


class Dump:
    """A value change dump that is read: the signals' values at each time."""

    def __init__(self, text: str) -> None:
        words = iter(text.split())
        self.widths: dict[str, tuple[str, str, int]] = {}
        self.scopes: list[str] = []
        self.unit = ""
        for word in words:
            section = list(iter(lambda: next(words), "$end"))
            if word == "$enddefinitions":
                break
            self.declare(word, section)
        self.names: dict[str, str] = {}
        self.values: dict[str, str] = {}
        self.times: list[tuple[int, dict[str, str]]] = []
        for word in words:
            if word[0] == "#":
                self.values = dict(self.values)
                self.times.append((int(word[1:]), self.values))
            elif word[0] in "bs":
                self.change(next(words), word)
            elif word[0] != "$":
                self.change(word[1:], "b" + word[0])

    def declare(self, word: str, section: list[str]) -> None:
        if word == "$timescale":
            self.unit = " ".join(section)
        elif word == "$scope":
            self.scopes.append(section[1])
        elif word == "$upscope":
            self.scopes.pop()
        elif word == "$var":
            kind, width, letter, name = section
            if letter in self.widths:
                raise ValueError(f"{letter} stands for two signals")
            self.widths[letter] = (".".join([*self.scopes, name]), kind, int(width))
        elif word not in ("$date", "$version", "$comment"):
            raise ValueError(f"{word} is no section")

    def change(self, letter: str, value: str) -> None:
        name, kind, width = self.widths[letter]
        is_string = kind == "string"
        if is_string != (value[0] == "s") or not (is_string or 1 <= len(value) - 1 <= width):
            raise ValueError(f"{value} is no value of {name}")
        self.values[name] = value[1:]


def bits_of(value: int | None) -> str:
    return "z" if value is None else f"{value:b}"


def signals(cycle: Cycle, last: dict[str, str], texts: Texts) -> dict[str, str]:
    """The values of all signals in a cycle; `last` has those of the instructions that were issued last."""
    turn, modes = cycle.turn, f"{cycle.state.modes:b}"
    found = {"flexpret.slot": cycle.slot(), "flexpret.modes": modes}
    if turn.kind == Kind.ISSUE:
        text = texts.of.get((turn.pc, turn.word), "?").replace(" ", "_")
        last[f"flexpret.T{turn.thread}.pc"] = f"{turn.pc:b}"
        last[f"flexpret.T{turn.thread}.instruction"] = text
    for k, state in enumerate(cycle.state.threads):
        own = {
            "issue": str(int(turn.kind == Kind.ISSUE and turn.thread == k)),
            "flushed": str(int(cycle.is_flushed() and turn.thread == k)),
            "asleep": str(int(state.asleep)),
            "armed": bits_of(state.armed),
            "latch": bits_of(state.latch),
            "input": bits_of(state.input),
        }
        found |= {f"flexpret.T{k}.{name}": value for name, value in own.items()}
    return found | last


def declared() -> set[tuple[str, str, int]]:
    wires = {"pc": 32, "issue": 1, "flushed": 1, "asleep": 1, "armed": 64, "latch": 32, "input": 32}
    found = {("flexpret.slot", "string", 1), ("flexpret.modes", "wire", 16)}
    for k in range(THREADS):
        found |= {(f"flexpret.T{k}.{name}", "wire", width) for name, width in wires.items()}
        found.add((f"flexpret.T{k}.instruction", "string", 1))
    return found


def wrong_vcd(shown: str, window: Window, texts: Texts) -> Wrong:
    dump = Dump(shown)
    yield from differs(
        "vcd declarations", (dump.unit, set(dump.widths.values())), ("1 ns", declared())
    )
    wanted = [cycle.time for cycle in window.shown()] + [window.end * window.period]
    yield from differs("vcd times", [time for time, _ in dump.times], wanted)
    last: dict[str, str] = {}
    for cycle, (_, values) in zip(window.shown(), dump.times):
        found = signals(cycle, last, texts)
        for name in sorted(found.keys() | values.keys()):
            is_, want = ((cycle.number, name, it.get(name)) for it in (values, found))
            yield from differs(f'vcd {name.split(".")[-1]}', is_, want)
    if len(dump.times) > 1:
        yield from differs("vcd end", dump.times[-1][1], dump.times[-2][1])


def wrong_konata(shown: str, window: Window, texts: Texts) -> Wrong:
    yield from differs("konata rules", kanata.first_fault(shown.splitlines(keepends=True)), None)
    ids: dict[int, int] = {}  # of the turns, by their cycles
    wanted = ["Kanata\t0004", f"C=\t{window.first}"]
    flushed = {cycle.number: cycle.is_flushed() for cycle in window.shown()}
    for cycle in window.shown():
        number = cycle.number
        ends = [(at, how) for at, how in ((number - 5, False), (number - 2, True)) if at in ids]
        wanted += [f"R\t{ids[at]}\t{ids[at]}\t{how:d}" for at, how in ends if flushed[at] == how]
        if cycle.thread() is not None:
            own = ids[number] = len(ids)
            wanted += [f"I\t{own}\t{own}\t{cycle.thread()}", f"L\t{own}\t0\t{texts.turn(cycle)}"]
            wanted.append(f"L\t{own}\t1\tcycle {number}, {cycle.time} ns")
        for k, stage in enumerate(STAGES):
            if number - k in ids and (k < 2 or not flushed[number - k]):
                wanted.append(f"S\t{ids[number - k]}\t0\t{stage}")
        wanted.append("C\t1")
    yield from differs("konata log", shown.split("\n"), [*wanted, ""])


FORMS = {"text": wrong_text, "vcd": wrong_vcd, "konata": wrong_konata}
