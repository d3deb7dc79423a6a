"""Compares the text of `flexpret_view`, and each form that is drawn from it, with the executable model of model/ and
with the proved program.

Setups with images are drawn at random, a third of them with much use of ports and moments, a third with words of any bits as
code. For each the model computes the state of every cycle, and a few windows in each form are read back and compared with it: the
text with its states line by line, a value change dump signal by signal at each cycle, a log for Konata by the rules of kanata.py and turn by
turn. The proved program's `run`, `phases` and `dump` at some cycles are compared with the same, and the
instructions' texts must assemble to their words. If GTKWave's vcd2fst is installed, it reads some dumps too. Setup N of a
seed is always the same, so --only N repeats one. The gate makes a short call. The status is 1 if something differs."""

import argparse
import contextlib
import random
import shutil
import subprocess
import sys
import tempfile
from collections import Counter
from collections.abc import Iterator, Sequence
from dataclasses import dataclass, field
from pathlib import Path

from dev.program import TOP, built_program
from dev.fuzz.view_forms import FORMS, OPEN, Cycle, Dump, Run, Texts, Window, Wrong, differs
from fptools.view.drawer import drawn
from fptools.view.rows import STAGES, rows_of

from model.assembler import assemble
from model.drawn.code import addi, load, store
from model.drawn.worlds import PORT_BASE
from model.drawn.worlds import World as DrawnWorld
from model.images import Image, read_image
from model.instructions import Ins, decode
from model.setups import READ_ONLY, SMALL, THREADS, read_setup

VIEW = TOP / "crates/flexpret_view/out/flexpret_view"

EACH_FST = 20
"""One setup in so many has a dump that GTKWave's vcd2fst reads."""


class BusyWorld(DrawnWorld):
    """A drawn setup whose threads mostly may fetch everywhere, and use their ports, moments and waits much."""

    def _regions(self) -> tuple[list[int], list[int]]:
        iregions, dregions = super()._regions()
        return [READ_ONLY] * 8 if self.chance.random() < 0.8 else iregions, dregions

    def _piece(self, at: int) -> list[Ins]:
        chance, register = self.chance, self._register()
        others = [
            [
                addi(register, register, chance.randrange(-2048, 2048)),
                store("Sw", PORT_BASE, register, 0),
            ],
            [load("Lw", register, PORT_BASE, 0), store("Sw", PORT_BASE, register, 0)],
            self._wait(),
            self._time(),
            self._near(),
        ]
        return chance.choice(others) if chance.random() < 0.6 else super()._piece(at)


class WildWorld(DrawnWorld):
    """A drawn setup with drawn code of which many bits are turned."""

    def _image(self) -> Image:
        return Image([(at, self._turned(data)) for at, data in super()._image().segments])

    def _turned(self, data: bytes) -> bytes:
        words = [int.from_bytes(data[k : k + 4], "little") for k in range(0, len(data), 4)]
        return b"".join(self._wild(word).to_bytes(4, "little") for word in words)

    def _wild(self, word: int) -> int:
        """Mostly with other registers and numbers, at times with any bits."""
        masks = [0, 0xF80, 0x1F00F80, 0x1FF8F80, 0xFFF00000, 1 << self.chance.randrange(32), OPEN]
        return word ^ self.chance.getrandbits(32) & self.chance.choice(masks)


KINDS: list[type[DrawnWorld]] = [DrawnWorld, BusyWorld, WildWorld]
"""The kinds of setups, drawn in turn."""


# ---------------------------------------------------------------- the programs


class Programs:
    """Calls the view and the proved program over the setup of a folder."""

    def __init__(self, view: Path, command: Path, folder: Path) -> None:
        self.view, self.command, self.folder = view, command, folder

    def call(self, program: Path, words: Sequence[str]) -> bytes:
        ended = subprocess.run([program, *words], cwd=self.folder, capture_output=True, timeout=60)
        if (ended.returncode, ended.stderr) != (0, b""):
            raise ValueError(
                f'{" ".join(words)}: status {ended.returncode}, {(ended.stdout + ended.stderr)[:80]!r}'
            )
        return ended.stdout

    def turns(self, window: Window) -> str:
        words = ["turns", "a.toml", "--from", str(window.first), "--to", str(window.end)]
        return self.call(self.view, [*words, "--state"]).decode()

    def lines(self, name: str, cycles: int, *words: str) -> list[str]:
        said = self.call(self.command, [name, "a.toml", "--cycles", str(cycles), *words])
        return said.decode().splitlines()

    def assemble(self, source: str) -> bytes:
        (self.folder / "a.s").write_text(source)
        return self.call(self.command, ["asm", "a.s"])


def wrong_runs(programs: Programs, run: Run) -> Wrong:
    """The lines of `run` and `phases` against the turns and settings that the forms were compared with."""
    count = len(run.cycles)
    for thread in range(THREADS):
        events = [
            cycle.turn.event
            for cycle in run.cycles[: max(count - 4, 0)]
            if cycle.turn.thread == thread
        ]
        wanted = [event.line().decode()[:-1] for event in events if event]
        yield from differs("run", programs.lines("run", count, "--thread", str(thread)), wanted)
    phases = [(int(line[:10]), line[11:]) for line in programs.lines("phases", count)]
    for cycle in run.cycles[: max(count - 1, 0)]:
        setting = next(setting for at, setting in reversed(phases) if at <= cycle.number)
        yield from differs("phases", setting, f"{cycle.slots:08x} {cycle.state.modes:08x}")


def stage_line(cycles: Sequence[Cycle], number: int) -> str:
    """A turn as a dump has it."""
    if number < 0 or cycles[number].thread() is None:
        return "-"
    turn = cycles[number].turn
    return (
        f"T{turn.thread} flushed"
        if cycles[number].is_flushed()
        else f"T{turn.thread} {turn.pc:08x} {turn.word:08x}"
    )


def wrong_dump(programs: Programs, run: Run, number: int) -> Wrong:
    """A dump at the start of a cycle: the turns before it, and the state."""
    fields = dict(
        line.split(" ", 1) for line in programs.lines("dump", number) if line[0] not in "T["
    )
    stages = [stage_line(run.cycles, number - k) for k in range(1, 6)]
    stages[0] = stages[0][:2]
    is_ = [fields[name] for name in STAGES]
    yield from differs("dump stages", is_, [stage.strip() for stage in stages])
    cycle = run.cycles[number]
    settings = (f"{cycle.slots:08x}", f"{cycle.state.modes:08x}")
    yield from differs("dump settings", (fields["slots"], fields["modes"]), settings)
    words = [line.split() for line in programs.lines("dump", number) if line[0] == "T"]
    armed = {line[0]: (line[2], int(line[4], 16)) for line in words if line[1] == "armed"}
    latches = {line[0]: line[2] for line in words if line[1] == "latch"}
    for k, state in enumerate(cycle.state.threads):
        moment, sleep = armed[f"T{k}"]
        asleep = cycle.state.modes >> 2 * k & 1 == 1 or cycle.time < sleep
        latch = "open" if state.latch is None else f"{state.latch:08x}"
        wanted = ("-" if state.armed is None else f"{state.armed:016x}", state.asleep, latch)
        yield from differs("dump thread", (moment, asleep, latches[f"T{k}"]), wanted)


def has_text(pc: int, word: int) -> bool:
    """Whether a word has another text than `.word`."""
    found = decode(word)
    if found.kind == "Fence":
        return word in (0x0FF0000F, 0x0000100F)
    return found.kind != "Illegal" and not (
        found.kind in ("Jal", "Branch") and (pc + found.imm) % 4
    )


def moved(text: str, distance: int) -> str:
    """The text of an instruction that is placed `distance` bytes lower, with its target as many bytes lower."""
    name, _, operands = text.partition(" ")
    if name not in ("jal", "beq", "bne", "blt", "bge", "bltu", "bgeu"):
        return text
    front, _, target = operands.rpartition(" ")
    return f"{name} {front} 0x{(int(target, 16) - distance) % (1 << 32):08x}"


def sources(texts: Texts) -> Iterator[tuple[str, dict[int, int]]]:
    """Sources that have all texts, each at its address modulo the scratchpad's size, and the words that they have to give."""
    left = sorted(((pc % SMALL, pc, word), text) for (pc, word), text in texts.of.items())
    while left:
        lines: list[str] = []
        words: dict[int, int] = {}
        others, at = left[:0], 0
        for (place, pc, word), text in left:
            if place in words:
                others.append(((place, pc, word), text))
                continue
            lines += [f".space {place - at}", moved(text, pc - place)]
            words[place], at = word, place + 4
        yield "\n".join(lines), words
        left = others


def wrong_texts(programs: Programs, texts: Texts) -> Wrong:
    for (pc, word), text in texts.of.items():
        yield from differs(
            "text of a word",
            (f"{pc:08x}", f"{word:08x}", text, text.startswith(".word")),
            (f"{pc:08x}", f"{word:08x}", text, not has_text(pc, word)),
        )
    for source, words in sources(texts):
        for given in (programs.assemble(source), assemble(source.encode()).written()):
            image = read_image(given, SMALL)
            for place, word in words.items():
                yield from differs(
                    "assembled", (place, f"{image.word(place):08x}"), (place, f"{word:08x}")
                )


def fst_values(programs: Programs, text: str) -> str:
    """A dump after a conversion by GTKWave's tools and back."""
    (programs.folder / "a.vcd").write_text(text)
    subprocess.run(
        ["vcd2fst", "a.vcd", "a.fst"], cwd=programs.folder, check=True, capture_output=True
    )
    return subprocess.run(
        ["fst2vcd", "a.fst"], cwd=programs.folder, check=True, capture_output=True, text=True
    ).stdout


def wrong_fst(programs: Programs, text: str) -> Wrong:
    """The dump that vcd2fst read against the dump as it was."""
    own, other = Dump(text), Dump(fst_values(programs, text))
    yield from differs(
        "fst times", sorted({time for time, _ in other.times} - {time for time, _ in own.times}), []
    )
    seen = dict(other.times)
    values: dict[str, str] = {}
    for time, wanted in own.times:
        values = seen.get(time, values)
        wanted_padded = {name: padded(name, value) for name, value in wanted.items()}
        found = {name: padded(name, value) for name, value in values.items() if name in wanted}
        yield from differs("fst values", found, wanted_padded)


def padded(name: str, value: str) -> str:
    """A value without the digits that a width adds."""
    return value if name.endswith(("slot", "instruction")) else value.lstrip("0z") or value[-1]


# ---------------------------------------------------------------- setups and windows


@dataclass
class Tally:
    """The counts of comparisons, and the differences."""

    compared: Counter[str] = field(default_factory=Counter)
    different: Counter[str] = field(default_factory=Counter)
    first: dict[str, str] = field(default_factory=dict)

    def take(self, found: Wrong, where: str) -> None:
        for kind, how in found:
            self.different[kind] += 1
            self.first.setdefault(kind, f"{where}: {how}")


def windows(
    chance: random.Random, cycles: Sequence[Cycle], period: int
) -> Iterator[tuple[Sequence[str], Window]]:
    """All cycles as text; and in each form a window from cycle 0 on, one somewhere, and one of a single cycle or a few."""
    end = len(cycles)
    yield ["text"], Window(cycles, 0, end, period)
    first, few = chance.randrange(end), chance.randrange(end)
    yield list(FORMS), Window(cycles, 0, chance.randrange(1, end + 1), period)
    yield list(FORMS), Window(cycles, first, chance.randrange(first + 1, end + 1), period)
    count = chance.choice([1, 1, 2, 3, 4, 5, 6, 9])
    yield list(FORMS), Window(cycles, few, min(end, few + count), period)


def draw(form: str, shown: str, window: Window) -> str:
    """The window in a form, drawn from its text."""
    return "".join(f"{line}\n" for line in drawn(form, rows_of(shown.splitlines()), window.first))


def kind_of(cycle: Cycle) -> str:
    """The kind by which a cycle is counted."""
    if cycle.thread() is None:
        return "idle"
    kind = "flushed" if cycle.is_flushed() else cycle.outcome().split()[0]
    kind = kind if kind in ("flushed", "held", "trap", "wait") else "other"
    return f"{kind} donated" if cycle.is_donated() else kind


class Fuzz:
    """Draws setups, and compares their views."""

    def __init__(self, seed: int, programs: Programs, with_fst: bool) -> None:
        self.seed, self.programs, self.with_fst = seed, programs, with_fst
        self.tally = Tally()

    def try_setup(self, number: int) -> None:
        chance = random.Random(f"{self.seed}:{number}")
        drawn = KINDS[number % len(KINDS)](chance.getrandbits(48))
        (self.programs.folder / "a.toml").write_bytes(drawn.setup)
        (self.programs.folder / "a.fpx").write_bytes(drawn.image)
        setup = read_setup(drawn.setup)
        count = max(drawn.cycles, chance.choice([0, 100, 300, 600])) + chance.randrange(1, 40)
        run = Run(setup, read_image(drawn.image, setup.size), count)
        texts = Texts()
        self.count(setups=1, cycles=len(run.cycles))
        self.count(**Counter(kind_of(cycle) for cycle in run.cycles))
        with_fst = self.with_fst and number % EACH_FST == 0
        for forms, window in windows(chance, run.cycles, setup.period):
            where = f"setup {number}, from {window.first} to {window.end}"
            shown = self.programs.turns(window)
            for form in forms:
                self.try_form(f"{where}, {form}", form, shown, window, texts)
            if with_fst and forms != ["text"]:
                self.count(fst=1)
                self.tally.take(wrong_fst(self.programs, draw("vcd", shown, window)), where)
                with_fst = False
        self.count(runs=THREADS)
        self.tally.take(wrong_runs(self.programs, run), f"setup {number}")
        for _ in range(4):
            at = chance.randrange(len(run.cycles))
            self.count(dumps=1)
            self.tally.take(wrong_dump(self.programs, run, at), f"setup {number}, dump {at}")
        self.count(texts=len(texts.of))
        self.tally.take(wrong_texts(self.programs, texts), f"setup {number}")

    def try_form(self, where: str, form: str, shown: str, window: Window, texts: Texts) -> None:
        try:
            text = shown if form == "text" else draw(form, shown, window)
            self.tally.take(FORMS[form](text, window, texts), where)
        except (ValueError, KeyError, IndexError, StopIteration, RuntimeError) as error:
            self.tally.take(iter([(f"{form} is no {form}", repr(error))]), where)
        self.count(**{form: 1, f"{form} cycles": len(window)})

    def count(self, **counts: int) -> None:
        self.tally.compared.update(counts)


def options() -> argparse.Namespace:
    parser = argparse.ArgumentParser(
        description=__doc__, formatter_class=argparse.RawDescriptionHelpFormatter
    )
    parser.add_argument("--seed", type=int, default=1, help="what is drawn")
    parser.add_argument("--first", type=int, default=0, help="the number of the first setup")
    parser.add_argument(
        "--count", type=int, default=200, help="how many setups; an interrupt ends it before"
    )
    parser.add_argument(
        "--only", type=int, help="one setup alone, whose files are left in the folder of --keep"
    )
    parser.add_argument(
        "--keep", type=Path, help="the folder for the files of the setup; else one that goes"
    )
    parser.add_argument("--view", default=str(VIEW), help="the view")
    parser.add_argument("--program", help="the proved program")
    return parser.parse_args()


def main() -> int:
    asked = options()
    numbers = (
        [asked.only] if asked.only is not None else range(asked.first, asked.first + asked.count)
    )
    with tempfile.TemporaryDirectory() as room:
        folder = asked.keep or Path(room)
        programs = Programs(built_program(asked.view), built_program(asked.program), folder)
        fuzz = Fuzz(
            asked.seed, programs, all(shutil.which(name) for name in ("vcd2fst", "fst2vcd"))
        )
        with contextlib.suppress(KeyboardInterrupt):
            for number in numbers:
                fuzz.try_setup(number)
    print("compared:", ", ".join(f"{count} {name}" for name, count in fuzz.tally.compared.items()))
    for kind, count in fuzz.tally.different.most_common():
        print(f"{kind}: {count} differ; first {fuzz.tally.first[kind]}")
    return 1 if fuzz.tally.different else 0


if __name__ == "__main__":
    sys.exit(main())
