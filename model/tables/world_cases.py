"""worlds.txt and settings.txt: cases of drawn setups, each named by its seed."""

import random
from collections.abc import Iterator

from model.commands import Status, answer
from model.drawn.worlds import World as DrawnWorld
from model.images import read_image
from model.registers import DREGIONS, IREGIONS, mode
from model.setups import HARD, HARD_ASLEEP, THREADS, Setup, read_setup
from model.tables.cases import Bench
from model.tables.forms import ZERO_WORD
from model.world import World, is_setting, settings

CASES = 200

EIGHT_ZERO_WORDS = f" {ZERO_WORD}" * 8
HELD, NO_DEVICE = ["h"] * THREADS, ["-"] * THREADS


def shortened(line: str) -> str:
    """A line with the abbreviations of dumps and traces."""
    return line.replace(EIGHT_ZERO_WORDS, "*").replace(ZERO_WORD, ".")


def digits(data: bytes) -> str:
    """Bytes in hexadecimal digits, with a full stop for each word of 0."""
    words = (data[k : k + 4].hex() for k in range(0, len(data), 4))
    return "".join("." if word == ZERO_WORD else word for word in words)


def devices(seed: int) -> list[str]:
    """The kinds of devices at the eight ports: of three seeds in a row all that hold, some of all kinds, and none."""
    if seed % 3 != 1:
        return HELD if seed % 3 == 0 else NO_DEVICE
    chance = random.Random(f"{seed} devices")
    return [chance.choice(["h", "h", "-", f"w{chance.randint(1, 8)}"]) for _ in range(THREADS)]


def command_lines(line: str, files: dict[str, bytes], kinds: list[str]) -> Iterator[str]:
    """A command line with its answer, as the tables of commands write them."""
    status, text = answer(line.split(), files, Bench(kinds).ports())
    yield f"--- {status} $ {line}"
    for each in text.decode().splitlines():
        is_run = status == Status.OK and not line.startswith("dump")
        yield shortened(each.lstrip(" ") if is_run else each)


def file_lines(files: dict[str, bytes]) -> Iterator[str]:
    """Files: a setup as text, an image in hexadecimal digits."""
    for name, data in files.items():
        if name.endswith(".fpx"):
            yield f"--- bytes {name}"
            yield digits(data)
        else:
            yield f"--- text {name}"
            yield from data.decode().splitlines()


class Drawn:
    """The setup and image of a seed with devices of some kinds, and the results of its run."""

    def __init__(self, seed: int, kinds: list[str]) -> None:
        drawn = DrawnWorld(seed)
        self.seed, self.cycles, self.kinds = seed, drawn.cycles, kinds
        self.files = {"a.toml": drawn.setup, "a.fpx": drawn.image}
        self.setup: Setup = read_setup(drawn.setup)
        image = read_image(drawn.image, self.setup.size)
        self.world = World(self.setup, image, Bench(kinds).ports()).run_to(self.cycles)
        self.settings = settings(self.setup, self.world, self.cycles)

    def head(self) -> Iterator[str]:
        yield f"=== {self.seed}"
        yield " ".join(self.kinds)
        yield from file_lines(self.files)

    def asked(self, line: str) -> Iterator[str]:
        """A command line with its answer."""
        yield from command_lines(f"{line} --cycles {self.cycles}", self.files, self.kinds)

    def checked(self, number: int) -> Iterator[str]:
        """A thread's trace by itself, and that it is the recorded one."""
        solo = f"solo a.toml --thread {number} --cycles {self.cycles}"
        yield from command_lines(solo, self.files, self.kinds)
        yield "--- written a.trace"
        trace = answer(solo.split(), self.files, Bench(self.kinds).ports())[1]
        line = f"check a.toml --thread {number} --cycles {self.cycles} --trace a.trace"
        yield from command_lines(line, {**self.files, "a.trace": trace}, self.kinds)

    def stays_hard(self, number: int) -> bool:
        """Whether a thread is confined, and hard, asleep or not, in each setting."""
        modes = (mode(setting.modes, number) for setting in self.settings)
        return self.setup.threads[number].confined and all(
            each in (HARD, HARD_ASLEEP) for each in modes
        )

    def issues(self, number: int) -> bool:
        return any(event.thread == number for event in self.world.retired(self.cycles))

    def writes_regions(self) -> bool:
        return any(is_setting(turn.event, (DREGIONS, IREGIONS)) for turn in self.world.turns)


def world_case(seed: int) -> Iterator[str]:
    """The traces of all threads, the dump and the settings; in a quiet run each confined hard thread by itself too."""
    drawn = Drawn(seed, devices(seed))
    yield from drawn.head()
    for number in range(THREADS):
        yield from drawn.asked(f"run a.toml --thread {number}")
    yield from drawn.asked("dump a.toml")
    yield from drawn.asked("phases a.toml")
    for number, thread in enumerate(drawn.setup.threads):
        if drawn.world.is_quiet() and thread.confined and thread.mode == HARD:
            yield from drawn.checked(number)


def setting_case(seed: int) -> Iterator[str]:
    """The settings of a run in which slots or modes are written and no regions, and the traces of the confined threads
    that stay hard and issue; nothing of other seeds."""
    drawn = Drawn(seed, HELD)
    threads = [
        number for number in range(THREADS) if drawn.stays_hard(number) and drawn.issues(number)
    ]
    if not threads or len(drawn.settings) == 1 or drawn.writes_regions():
        return
    yield from drawn.head()
    yield from drawn.asked("phases a.toml")
    for number in threads:
        yield from drawn.asked(f"run a.toml --thread {number}")


def worlds(seed: int) -> Iterator[str]:
    """200 cases, of the seeds from one on."""
    for each in range(seed, seed + CASES):
        yield from world_case(each)


def some_settings(seed: int) -> Iterator[str]:
    """200 cases, of seeds from one on."""
    found = 0
    while found < CASES:
        lines = list(setting_case(seed))
        found, seed = found + bool(lines), seed + 1
        yield from lines
