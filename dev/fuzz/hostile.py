"""Draws hostile command lines, with the files that they read, from the examples and the tables of the rows."""
import random
import re
import struct
from collections.abc import Callable, Sequence
from dataclasses import dataclass, field

from dev.program import TOP
from dev.gate.tables import cases, columns
from model.tables.forms import repeated, unescaped

EDGES = sorted(
    {
        base + step
        for base in (
            0,
            4,
            8,
            16,
            32,
            128,
            256,
            1000,
            1152,
            4096,
            16384,
            34816,
            65536,
            139264,
            262144,
            1 << 20,
            1 << 22,
            1 << 29,
            1 << 30,
            1 << 31,
            1 << 32,
            4_000_000_000,
            1 << 63,
            1 << 64,
        )
        for step in (-4, -1, 0, 1, 4)
    }
)
"""Numbers at and next to the limits of some range."""

SETUP_PIECES = [
    "version = 2",
    "version = 3",
    "period = 0",
    "period = 1000",
    'image = ""',
    'image = "a.fpx"',
    "[[thread]]",
    "[thread]",
    "[[loop]]",
    "[[loops]]",
    "id = 7",
    "id = 8",
    'mode = "hard"',
    'mode = "soft"',
    'mode = "hard-asleep"',
    'mode = "Hard"',
    "entry = 0x10",
    "entry = 2",
    "confined = true",
    "permit = true",
    'confined = "true"',
    "unplug = 0",
    "unplug = 4000000001",
    "inputs = [[0, 1], [0, 2]]",
    "inputs = [[1, 2], [3]]",
    "inputs = []",
    "head = 0",
    "last = 0",
    "bound = 1048577",
    '"a" = 1',
    "'",
    '"""',
    "[[[",
    "= 1",
    "1979-05-27",
    "inf",
    "{ a = 1 }",
    "\u00e4 = 1",
    "\ufeff",
    "# \u0000",
    "a.b = 1",
]

SOURCE_PIECES = [
    "nop",
    "li x5, -2048",
    "li x31, 4294967296",
    "la x1, a",
    "a:",
    "a: a:",
    "beq x0, x0, a",
    "j a+4",
    ".org 0x20000000",
    ".org 16380",
    ".word 1, -1, a",
    ".space 16384",
    ".space 3",
    "lw x1, 2048(x2)",
    "csrrw x0, slots, x1",
    "csrrwi x0, 4096, 1",
    "du x1, x2",
    "ee x0, x1",
    "fence.i",
    "mul x1, x2, x3",
    "call a",
    "0x",
    "0X1",
    "1a",
    "@",
    "\u00e4",
    ",,,",
    "- 5",
    "\r",
    "\t",
    " ".join(["nop"] * 65),
    "# \u0000",
    ".",
    "_:",
    "add",
    "jal x1, 1048576",
    "bnez x5, 4096",
    "ret",
    "csrr x1, 0xfff",
]

HOSTILE_WORDS = [
    b"",
    b"-",
    b"--",
    b"--thread",
    b"--cycles",
    b"--trace",
    b"--routines",
    b"--from",
    b"--to",
    b"--help",
    b"-h",
    b"--version",
    b"--thread=",
    b"--thread=0",
    b"--thread=8",
    b"--thread=00",
    b"--cycles=0",
    b"--cycles=5",
    b"--cycles=-1",
    b"--cycles=+1",
    b"--cycles=00000000005",
    b"--cycles=0000000005",
    b"--cycles=4000000001",
    b"--cycles=5=5",
    b"--cycles==5",
    b"--from=0X10",
    b"--from=0x",
    b"--from=0x000000010",
    b"--to=4294967296",
    b"--to=0xffffffff",
    b"0",
    b"7",
    b"help",
    b"run",
    b"selfrun",
    b"5 ",
    b" 5",
    b"\xff",
    b"a.toml\xff",
    b"\xc3\xa4",
    b"--\xc3\xa4=1",
    b"--thre",
    b"--thread 0",
    b"/dev/null",
    b"/dev/zero",
    b".",
    b"..",
    b"/",
    b"a.fpx",
    b"a.toml",
    b"a.s",
    b"a.elf",
    b"isnt",
    b"a" * 300,
    b"a" * 100_000,
    b"--cycles=" + b"0" * 100_000,
    b"\n",
    b"%s",
    b"'",
    b'"',
    b"\\",
    b"$(true)",
    b"--no-thread",
    b"@a.toml",
]

SPECIAL_WORDS = [
    0,
    0xFFFFFFFF,
    0x00000073,
    0x00100073,
    0x30200073,
    0x0000100F,
    0x0000000F,
    0x00008067,
    0x0000006F,
    0x7C009073,
    0x7C109073,
    0x7C209073,
    0x7C309073,
    0x30509073,
    0xF1402573,
    0x0000050B,
    0x0000158B,
    0x0010300B,
    0x0020200B,
    0x0020400B,
    0x0000500B,
    0x200000B7,
    0x40000137,
    0x0000A023,
    0x0000A103,
    0x00012283,
    0xFE029EE3,
    0xFFF28293,
    0x02208133,
    0x0220C133,
]
"""Words of the machine's own instructions, of ends of visits, and of loads, stores and loops."""

FEW_CYCLES = 300
"""The most cycles of a run that is compared with the model, which is slow."""

MANY_CYCLES = 20_000


@dataclass
class Corpus:
    """The files to mutate: setups with their images, and files of each other kind."""

    setups: list[tuple[bytes, bytes]] = field(default_factory=list)
    called: list[tuple[bytes, bytes, bytes]] = field(default_factory=list)
    sources: list[bytes] = field(default_factory=list)
    executables: list[bytes] = field(default_factory=list)
    routines: list[bytes] = field(default_factory=list)
    traces: list[bytes] = field(default_factory=list)
    words: list[int] = field(default_factory=list)


HARD_THREAD = re.compile(rb'^id = ([0-7])\nmode = "hard"', re.MULTILINE)
IMAGE_NAME = re.compile(rb'^image = ".*"', re.MULTILINE)
LARGEST_SEED = 70_000


def example(name: str) -> bytes:
    return (TOP / "examples" / name).read_bytes()


def corpus() -> Corpus:
    """The examples and the tables of the rows."""
    read = Corpus()
    for name in ("drive", "sum", "calls", "c/pid"):
        setup = IMAGE_NAME.sub(b'image = "a.fpx"', example(f"{name}.toml"))
        read.setups.append((setup, example(f"{name}.fpx")))
        read.traces.append(example(f"{name}.trace"))
    read.called.append((*read.setups[2], example("calls.routines")))
    add_cases(read)
    read.sources = [example("drive.s"), example("sum.s"), example("calls.s")]
    read.sources += [unescaped(row[-1]) for row in columns("sources.txt") if len(row) == 2]
    read.executables = [example("c/pid.elf")] + [
        repeated(row[-1]) for row in columns("elf.txt") if len(row[-1]) < LARGEST_SEED
    ]
    read.routines = [unescaped(row[-1].partition(" ")[2]) for row in columns("routines.txt")]
    read.words = SPECIAL_WORDS * 10 + [int(row[0].split()[0], 16) for row in columns("decode.txt")]
    return read


def add_cases(read: Corpus) -> None:
    """Adds the setups of the tables of cases."""
    for table in ("worked.txt", "commands.txt", "settings.txt", "worlds.txt", "calls.txt"):
        for case in cases(table):
            setup = case.setup()
            if setup is None:
                continue
            read.setups.append(setup)
            lists = [
                content for name, content in case.files.items() if name not in ("a.toml", "a.fpx")
            ]
            if table == "calls.txt" and lists:
                read.called.append((*setup, lists[0]))


@dataclass
class Line:
    """A command line, the files that it may read, and the file that gets the output of `solo` as a recorded trace."""

    words: list[bytes]
    files: dict[str, bytes] = field(default_factory=dict)
    recorded: list[bytes] | None = None

    def command(self) -> str:
        name = self.words[0].decode(errors="replace") if self.words else ""
        return name if name in COMMANDS else "other"


class Hostile:
    """Draws lines from a generator of random numbers."""

    def __init__(self, seeds: Corpus, chance: random.Random, few: bool) -> None:
        self.seeds, self.chance, self.few = seeds, chance, few

    # ------------------------------------------------------------ bytes and texts

    def bytes_of(self, data: bytes) -> bytes:
        """The bytes with one to four changes."""
        for _ in range(self.chance.choice((1, 1, 1, 2, 4))):
            data = self.chance.choice(BYTE_CHANGES)(self.chance, data)
        return data

    def text_of(self, data: bytes, pieces: Sequence[str]) -> bytes:
        """A text with one to four lines, numbers or bytes changed."""
        for _ in range(self.chance.choice((1, 1, 1, 2, 3, 4))):
            if self.chance.random() < 0.15:
                data = self.bytes_of(data)
            else:
                lines = data.split(b"\n")
                self.chance.choice(LINE_CHANGES)(self.chance, lines, pieces)
                data = b"\n".join(lines)
        return data

    def code_of(self, image: bytes) -> bytes:
        """An image with some words of its segments changed, and its headers as they were."""
        places = word_places(image)
        if not places:
            return self.bytes_of(image)
        changed = bytearray(image)
        for _ in range(self.chance.choice((1, 1, 2, 4, 16))):
            place = self.chance.choice(places)
            changed[place : place + 4] = struct.pack("<I", self.word())
        return bytes(changed)

    def word(self) -> int:
        word = self.chance.choice(self.seeds.words)
        return word ^ 1 << self.chance.randrange(32) if self.chance.random() < 0.2 else word

    def setup_of(self, setup: bytes) -> bytes:
        return setup if self.chance.random() < 0.65 else self.text_of(setup, SETUP_PIECES)

    def image_of(self, image: bytes) -> bytes:
        draw = self.chance.random()
        if draw < 0.3:
            return image
        return self.code_of(image) if draw < 0.8 else self.bytes_of(image)

    # ------------------------------------------------------------ parts of lines

    def machine(self) -> dict[str, bytes]:
        setup, image = self.chance.choice(self.seeds.setups)
        return {"a.toml": self.setup_of(setup), "a.fpx": self.image_of(image)}

    def cycles(self, most: int = MANY_CYCLES) -> bytes:
        draw = self.chance.random()
        if draw < 0.3:
            return b"%d" % self.chance.randrange(12)
        if self.few or draw < 0.9:
            return b"%d" % self.chance.randrange(FEW_CYCLES)
        return b"%d" % self.chance.randrange(most)

    def thread(self, setup: bytes) -> bytes:
        """Mostly a hard thread of a setup: only these have bounds and a trace by `solo`."""
        hard: list[bytes] = HARD_THREAD.findall(setup)
        return (
            self.chance.choice(hard)
            if hard and self.chance.random() < 0.8
            else b"%d" % self.chance.randrange(8)
        )

    def section(self, setup: bytes) -> list[bytes]:
        """A section that begins and ends near the loops of a setup, or anywhere."""
        places = [
            int(found, 0)
            for found in re.findall(
                rb"(?:head|last|entry) = (0x[0-9a-f]{1,8}|0|[1-9][0-9]{0,8})\b", setup
            )
        ]
        first = self.chance.choice((places or [0]) + [0, 4 * self.chance.randrange(64)])
        last = max([*places, first]) + 4 * self.chance.choice((1, 1, 1, 2, 3, 8))
        if self.chance.random() < 0.1:
            first, last = self.chance.choice(EDGES), self.chance.choice(EDGES)
        return [b"--from", b"%d" % first, b"--to", b"0x%x" % last if last >= 0 else b"%d" % last]

    # ------------------------------------------------------------ lines

    def line(self) -> Line:
        """A line of some command, whose arguments are changed now and then."""
        command = self.chance.choices(list(COMMANDS), [weight for _, weight in COMMANDS.values()])[
            0
        ]
        if self.few and command == "selfrun":
            command = "dump"
        line = COMMANDS[command][0](self, command.encode())
        if self.chance.random() < 0.15:
            self.change_words(line)
        return line

    def change_words(self, line: Line) -> None:
        """Drops, doubles, swaps, joins or replaces arguments. None of these gives a run more cycles."""
        for _ in range(self.chance.choice((1, 1, 2, 3))):
            self.chance.choice(WORD_CHANGES)(self.chance, line.words)

    def run(self, command: bytes) -> Line:
        files = self.machine()
        return Line(
            [
                command,
                b"a.toml",
                b"--thread",
                self.thread(files["a.toml"]),
                b"--cycles",
                self.cycles(),
            ],
            files,
        )

    def whole(self, command: bytes) -> Line:
        return Line([command, b"a.toml", b"--cycles", self.cycles()], self.machine())

    def check(self, command: bytes) -> Line:
        line = self.run(command)
        line.files["a.trace"] = self.chance.choice([*self.seeds.traces, b""])
        if self.chance.random() < 0.7:
            line.recorded = [b"solo", *line.words[1:]]
        line.words += [b"--trace", b"a.trace"]
        return line

    def bound(self, command: bytes) -> Line:
        files = self.machine()
        setup = files["a.toml"]
        return Line(
            [command, b"a.toml", b"--thread", self.thread(setup), *self.section(setup)], files
        )

    def calls(self, command: bytes) -> Line:
        setup, image, routines = self.chance.choice(self.seeds.called)
        if self.chance.random() < 0.3:
            routines = self.chance.choice(self.seeds.routines)
        if self.chance.random() < 0.3:
            routines = self.text_of(
                routines, ["00000100 00000104", "00000000 00000000", "", "0000fffc 0000fffc"]
            )
        setup = self.setup_of(setup)
        words = [
            command,
            b"a.toml",
            b"--thread",
            self.thread(setup),
            *self.section(setup),
            b"--routines",
            b"a.routines",
        ]
        return Line(words, {"a.toml": setup, "a.fpx": self.image_of(image), "a.routines": routines})

    def assemble(self, command: bytes) -> Line:
        source = self.text_of(self.chance.choice(self.seeds.sources), SOURCE_PIECES)
        return Line([command, b"a.s"], {"a.s": source})

    def executable(self, command: bytes) -> Line:
        return Line(
            [command, b"a.elf"],
            {"a.elf": self.bytes_of(self.chance.choice(self.seeds.executables))},
        )

    def own_run(self, command: bytes) -> Line:
        return Line([command, b"%d" % self.chance.choice(EDGES)])


COMMANDS: dict[str, tuple[Callable[[Hostile, bytes], Line], int]] = {
    "run": (Hostile.run, 20),
    "dump": (Hostile.whole, 10),
    "phases": (Hostile.whole, 10),
    "solo": (Hostile.run, 10),
    "check": (Hostile.check, 10),
    "bound": (Hostile.bound, 13),
    "calls": (Hostile.calls, 10),
    "asm": (Hostile.assemble, 9),
    "elf": (Hostile.executable, 8),
    "selfrun": (Hostile.own_run, 1),
}
"""The function that draws a line of each command, and its weight in 101."""


def word_places(image: bytes) -> list[int]:
    """The offsets of the segments' words, if the headers of the image are complete."""
    places: list[int] = []
    at = 8
    while at + 8 <= len(image):
        (length,) = struct.unpack_from("<I", image, at + 4)
        if length % 4 or at + 8 + length > len(image):
            break
        places.extend(range(at + 8, at + 8 + length, 4))
        at += 8 + length
    return places


# ---------------------------------------------------------------- changes of bytes


def flip(chance: random.Random, data: bytes) -> bytes:
    if not data:
        return b"\x00"
    place = chance.randrange(len(data))
    return data[:place] + bytes([data[place] ^ 1 << chance.randrange(8)]) + data[place + 1 :]


def cut(chance: random.Random, data: bytes) -> bytes:
    return data[: chance.randrange(len(data) + 1)]


def drop(chance: random.Random, data: bytes) -> bytes:
    first = chance.randrange(len(data) + 1)
    return data[:first] + data[first + chance.choice((1, 1, 2, 4, 16)) :]


def double(chance: random.Random, data: bytes) -> bytes:
    first = chance.randrange(len(data) + 1)
    piece = data[first : first + chance.choice((1, 4, 16, 200))]
    return data[:first] + piece * chance.choice((2, 2, 3, 100)) + data[first + len(piece) :]


def insert(chance: random.Random, data: bytes) -> bytes:
    place = chance.randrange(len(data) + 1)
    return data[:place] + chance.randbytes(chance.choice((1, 1, 2, 4, 40))) + data[place:]


def number(chance: random.Random, data: bytes) -> bytes:
    """Another number in four bytes at a multiple of four, which may be a field."""
    place = 4 * chance.randrange(min(len(data), 256) // 4 + 1)
    return data[:place] + struct.pack("<I", chance.choice(EDGES) % (1 << 32)) + data[place + 4 :]


BYTE_CHANGES = [flip, flip, cut, drop, double, insert, number, number]


# ---------------------------------------------------------------- changes of lines

DIGITS = re.compile(rb"0x[0-9a-fA-F]+|[0-9]+")


def drop_line(chance: random.Random, lines: list[bytes], _: Sequence[str]) -> None:
    del lines[chance.randrange(len(lines))]
    if not lines:
        lines.append(b"")


def double_line(chance: random.Random, lines: list[bytes], _: Sequence[str]) -> None:
    first = chance.randrange(len(lines))
    piece = lines[first : first + chance.choice((1, 1, 4, 8))]
    lines[first:first] = piece * chance.choice((1, 1, 1, 2, 60))


def swap_lines(chance: random.Random, lines: list[bytes], _: Sequence[str]) -> None:
    one, other = chance.randrange(len(lines)), chance.randrange(len(lines))
    lines[one], lines[other] = lines[other], lines[one]


def add_piece(chance: random.Random, lines: list[bytes], pieces: Sequence[str]) -> None:
    lines.insert(chance.randrange(len(lines) + 1), chance.choice(pieces).encode())


def change_number(chance: random.Random, lines: list[bytes], _: Sequence[str]) -> None:
    """Another number in a line that has one."""
    having = [k for k, line in enumerate(lines) if DIGITS.search(line)]
    if not having:
        return
    k = chance.choice(having)
    found = chance.choice(list(DIGITS.finditer(lines[k])))
    value = (
        chance.choice(EDGES)
        if chance.random() < 0.4
        else int(found[0], 16 if found[0][:2] == b"0x" else 10) + chance.choice((-4, -1, 1, 4))
    )
    text = b"%d" % value if chance.random() < 0.7 or value < 0 else b"0x%x" % value
    lines[k] = lines[k][: found.start()] + text + lines[k][found.end() :]


def change_text(chance: random.Random, lines: list[bytes], _: Sequence[str]) -> None:
    """Replaces a word by another one of the text."""
    words = re.findall(rb"[A-Za-z_.][A-Za-z0-9_.-]*", b"\n".join(lines))
    k = chance.randrange(len(lines))
    found = list(re.finditer(rb"[A-Za-z_.][A-Za-z0-9_.-]*", lines[k]))
    if found:
        at = chance.choice(found)
        lines[k] = lines[k][: at.start()] + chance.choice(words) + lines[k][at.end() :]


LINE_CHANGES = [
    drop_line,
    double_line,
    swap_lines,
    add_piece,
    add_piece,
    change_number,
    change_number,
    change_number,
    change_text,
]


# ---------------------------------------------------------------- changes of arguments


def drop_word(chance: random.Random, words: list[bytes]) -> None:
    if words:
        del words[chance.randrange(len(words))]


def double_word(chance: random.Random, words: list[bytes]) -> None:
    if words:
        words.insert(chance.randrange(len(words) + 1), chance.choice(words))


def swap_words(chance: random.Random, words: list[bytes]) -> None:
    if words:
        one, other = chance.randrange(len(words)), chance.randrange(len(words))
        words[one], words[other] = words[other], words[one]


def join_words(chance: random.Random, words: list[bytes]) -> None:
    """Joins two arguments by `=`, which is another spelling of an option."""
    options = [k for k, word in enumerate(words[:-1]) if word.startswith(b"--")]
    if options:
        k = chance.choice(options)
        words[k : k + 2] = [words[k] + b"=" + words[k + 1]]


def hostile_word(chance: random.Random, words: list[bytes]) -> None:
    place = chance.randrange(len(words) + 1)
    words[place : place + chance.randrange(2)] = [chance.choice(HOSTILE_WORDS)]


WORD_CHANGES = [
    drop_word,
    double_word,
    swap_words,
    join_words,
    join_words,
    hostile_word,
    hostile_word,
]
