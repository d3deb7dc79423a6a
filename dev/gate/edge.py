"""Checks behaviour that only the built program has: exit statuses, the lines of standard error, and standard
output that is full, closed or a pipe that nobody reads. Calls the program some hundred times, in a second or
two, and ends with 1 and a list if anything differs."""
import argparse
import contextlib
import os
import resource
import shutil
import signal
import struct
import subprocess
import sys
import tempfile
from collections.abc import Callable, Iterator, Sequence
from dataclasses import dataclass, field
from pathlib import Path
from typing import IO

from dev.program import BUILT_BY_RATTLE, TOP, built_program, complaint
from fptools.program.status import Status

SECONDS = 20
"""A call that takes longer is a fault."""

LITTLE_MEMORY = 48 << 20
"""Room for the program, but not for the 60,000,000 bytes of the longest trace that `check` reads."""

LATE_STORE = (b"        20 00000014", b"        24 00000014")
"""The replacement that makes the store in the sixth line of the example's trace four cycles late."""

RUN_DRIVE = ["run", "examples/drive.toml", "--thread", "0", "--cycles", "77"]
CHECK_DRIVE = ["check", "examples/drive.toml", "--thread", "0", "--cycles", "77", "--trace"]
CHECK_LONGEST = [
    "check",
    "examples/drive.toml",
    "--thread",
    "0",
    "--cycles",
    "1000000",
    "--trace",
    "/dev/zero",
]
BOUND_SUM = ["bound", "examples/sum.toml", "--thread", "0", "--from", "0x10", "--to", "0x3c"]
CALLS = [
    "calls",
    "examples/calls.toml",
    "--thread",
    "0",
    "--from",
    "0x8",
    "--to",
    "0x18",
    "--routines",
]

WRITING = [
    RUN_DRIVE,
    ["dump", "examples/drive.toml", "--cycles", "77"],
    ["phases", "examples/drive.toml", "--cycles", "77"],
    ["solo", *RUN_DRIVE[1:]],
    [*CHECK_DRIVE, "examples/drive.trace"],
    BOUND_SUM,
    [*CALLS, "examples/calls.routines"],
    ["asm", "examples/drive.s"],
    ["elf", "examples/c/pid.elf"],
    ["selfrun", "1"],
    ["asm", "twice.s"],
]
"""A command line of each command, and one that is refused: each writes something."""

Word = str | bytes


@dataclass(frozen=True)
class Seen:
    """The end of a call: its status, or the signal that ended it as a negative number."""

    status: int
    out: bytes
    err: bytes


@dataclass
class Edge:
    """The program, the folder of its calls, and the differences so far."""

    program: Path
    folder: Path
    rows: int = 0
    differences: list[str] = field(default_factory=list)

    def call(
        self,
        words: Sequence[Word],
        out: IO[bytes] | int = subprocess.PIPE,
        before: Callable[[], None] | None = None,
        ignored: bool = False,
    ) -> Seen:
        """Calls the program. `before` runs in the child; `ignored` keeps SIGXFSZ and SIGPIPE ignored there."""
        try:
            ended = subprocess.run(
                [self.program, *words],
                stdin=subprocess.DEVNULL,
                stdout=out,
                stderr=subprocess.PIPE,
                cwd=self.folder,
                preexec_fn=before,
                restore_signals=not ignored,
                timeout=SECONDS,
            )
        except subprocess.TimeoutExpired:
            return Seen(-signal.SIGALRM, b"", b"")
        return Seen(ended.returncode, ended.stdout or b"", ended.stderr)

    def want(
        self,
        name: str,
        seen: Seen,
        status: Status,
        out: bytes | None = b"",
        err: bytes | None = None,
    ) -> None:
        """Records the differences of a call. `out` None: any output is right; `err` None: the line of the status is."""
        self.rows += 1
        wanted_err = complaint(status) if err is None else err
        if seen.status != status:
            self.note(name, "status", seen.status, int(status))
        if out is not None and seen.out != out:
            self.note(name, "standard output", seen.out[:200], out[:200])
        if seen.err != wanted_err:
            self.note(name, "standard error", seen.err[:200], wanted_err)

    def note(self, name: str, what: str, seen: object, wanted: object) -> None:
        self.differences.append(f"{name}: {what} is {seen!r}, and must be {wanted!r}")

    def write(self, name: str, content: bytes) -> None:
        (self.folder / name).write_bytes(content)

    def example(self, name: str) -> bytes:
        return (self.folder / "examples" / name).read_bytes()


def shown(words: Sequence[Word]) -> str:
    return " ".join(w if isinstance(w, str) else repr(w) for w in words) or "no words"


# ---------------------------------------------------------------- the files


def setup_text(
    slots: list[str], threads: str, loops: str = "", period: int = 10, image: str = "ports.fpx"
) -> bytes:
    def listed(names: list[str]) -> str:
        return "[" + ", ".join(f'"{name}"' for name in names) + "]"

    return (
        f'period = {period}\nimage = "{image}"\nslots = {listed(slots)}\ni_regions = {listed(["readonly"] * 8)}\n'
        f'd_regions = {listed(["shared"] * 8)}\n{threads}{loops}'
    ).encode()


def thread_table(number: int, mode: str = "hard", more: str = "") -> str:
    return f'[[thread]]\nid = {number}\nmode = "{mode}"\nentry = 0\n{more}'


def image_bytes(words: list[int]) -> bytes:
    return struct.pack(f"<4sIII{len(words)}I", b"FPX1", 1, 0, 4 * len(words), *words)


PORT_WORDS = [
    0xF14022F3,  # csrr x5, mhartid
    0x40000137,  # lui x2, 0x40000
    0x00012303,  # lw x6, 0(x2)
    0x006283B3,  # add x7, x5, x6
    0x00712023,  # sw x7, 0(x2)
    0x0000006F,  # j .
]
"""Each thread stores to its port the sum of the word that it reads there and its own number."""

FIRST_INPUT = 0x100


def write_files(edge: Edge) -> None:
    """The examples, and files with one fault each."""
    shutil.copytree(TOP / "examples", edge.folder / "examples")
    edge.write("late.trace", edge.example("drive.trace").replace(*LATE_STORE))
    edge.write("twice.s", b"a:\na:\n")
    edge.write("period.toml", setup_text(["T0"] + ["D"] * 7, thread_table(0), period=0))
    edge.write("soft.toml", setup_text(["T0"] + ["D"] * 7, thread_table(0, "soft")))
    edge.write("magic.toml", setup_text(["T0"] + ["D"] * 7, thread_table(0), image="magic.fpx"))
    edge.write("magic.fpx", b"FPX2" + bytes(4))
    edge.write("lost.toml", setup_text(["T0"] + ["D"] * 7, thread_table(0), image="isnt.fpx"))
    edge.write("bad.routines", b"100 104\n")
    eight = "".join(
        thread_table(k, more=f"inputs = [[0, {FIRST_INPUT * (k + 1)}]]\n") for k in range(8)
    )
    edge.write("ports.toml", setup_text([f"T{k}" for k in range(8)], eight))
    edge.write("ports.fpx", image_bytes(PORT_WORDS))
    edge.write("h\u00e4fen.toml", (edge.folder / "ports.toml").read_bytes())


# ---------------------------------------------------------------- the rows


def statuses(edge: Edge) -> None:
    """Each status with a command line that gives it, its text, and its line of standard error."""
    rows: list[tuple[Status, Sequence[Word], bytes]] = [
        (Status.OK, RUN_DRIVE, edge.example("drive.trace")),
        (Status.OK, BOUND_SUM, edge.example("sum.bound")),
        (Status.OK, [*CALLS, "examples/calls.routines"], edge.example("calls.bound")),
        (Status.OK, ["asm", "examples/drive.s"], edge.example("drive.fpx")),
        (Status.OK, ["elf", "examples/c/pid.elf"], edge.example("c/pid.fpx")),
        (Status.OK, [*CHECK_DRIVE, "examples/drive.trace"], b"same\n"),
        (Status.DIFFERS, [*CHECK_DRIVE, "late.trace"], b"differs line 6\n"),
        (Status.USAGE, [], b""),
        (Status.USAGE, ["--help"], b""),
        (Status.USAGE, ["run", "examples/drive.toml", "--cycles", "77"], b""),
        (Status.USAGE, ["asm", ""], b""),
        (
            Status.SETUP,
            ["run", "period.toml", "--thread", "0", "--cycles", "5"],
            b"refused setup 6 OutOfRange period\n",
        ),
        (
            Status.SETUP,
            ["bound", "soft.toml", "--thread", "0", "--from", "0", "--to", "8"],
            b"refused section 1 NotHard\n",
        ),
        (Status.IMAGE, ["dump", "magic.toml", "--cycles", "5"], b"refused image 2 Magic 0\n"),
        (Status.IMAGE, ["elf", "examples/drive.fpx"], b"refused image 32 NotElf 0\n"),
        (Status.SOURCE, ["asm", "twice.s"], b"refused source 2 6 DoubleLabel\n"),
        (
            Status.BOUND,
            ["bound", "ports.toml", "--thread", "0", "--from", "20", "--to", "24"],
            b"refused bound 4 UnboundedBackEdge 00000014\n",
        ),
        (Status.ROUTINES, [*CALLS, "bad.routines"], b"refused routines 1 2 BadLine\n"),
    ]
    for status, words, out in rows:
        edge.want(shown(words), edge.call(words), status, out)


def files(edge: Edge) -> None:
    """A file that isn't there, a folder, and names below a file, in each place that names a file."""
    run = ["--thread", "0", "--cycles", "5"]
    rows: list[Sequence[Word]] = [
        ["run", "isnt.toml", *run],
        ["run", "lost.toml", *run],
        ["run", "examples", *run],
        ["run", "examples/drive.toml/a", *run],
        ["run", "a" * 5000, *run],
        ["asm", "examples"],
        ["elf", "isnt.elf"],
        [*CHECK_DRIVE, "isnt.trace"],
        [*CALLS, "examples"],
    ]
    for words in rows:
        edge.want(shown(words)[:100], edge.call(words), Status.READ)


def words_that_are_no_text(edge: Edge) -> None:
    """An argument that isn't UTF-8 is a usage error in any place; one beyond ASCII may be a file name."""
    bad = b"\xff\xfe"
    run: list[Word] = [*RUN_DRIVE]
    for place in range(len(run) + 1):
        for with_bad in ([*run[:place], bad, *run[place:]], [*run[:place], bad, *run[place + 1 :]]):
            edge.want(shown(with_bad), edge.call(with_bad), Status.USAGE)
    for word in (b"--cycles=\xc3", b"\xc3\x28.toml", b"\xed\xa0\x80", b"\xf4\x90\x80\x80"):
        edge.want(
            shown([word]), edge.call(["run", word, "--thread", "0", "--cycles", "5"]), Status.USAGE
        )
    words = ["dump", "h\u00e4fen.toml", "--cycles", "0"]
    edge.want(shown(words), edge.call(words), Status.OK, out=None)


def full_output(edge: Edge) -> None:
    """A full device: a write fails. A call that writes nothing keeps its status."""
    with open("/dev/full", "wb") as full:
        for words in WRITING:
            edge.want(f"{shown(words)} to a full device", edge.call(words, out=full), Status.WRITE)
        silent = [*RUN_DRIVE[:-1], "0"]
        edge.want(f"{shown(silent)} to a full device", edge.call(silent, out=full), Status.OK)
        edge.want("no words, to a full device", edge.call([], out=full), Status.USAGE)


def output_with_room(edge: Edge) -> None:
    """A file with a limit on its size gets a prefix of the text."""
    text = edge.call(["dump", "examples/drive.toml", "--cycles", "77"]).out
    trace = edge.call(["run", "examples/drive.toml", "--thread", "0", "--cycles", "40000"]).out
    for name, words, whole in (
        ("a dump", ["dump", "examples/drive.toml", "--cycles", "77"], text),
        (
            "a long trace",
            ["run", "examples/drive.toml", "--thread", "0", "--cycles", "40000"],
            trace,
        ),
    ):
        for room in (1, 100, len(whole) - 1, len(whole)):
            edge.want(
                f"{name} with room for {room} bytes",
                limited(edge, words, room),
                Status.OK if room == len(whole) else Status.WRITE,
                whole[:room],
            )


def limited(edge: Edge, words: Sequence[Word], room: int) -> Seen:
    """A call whose standard output is a file that may grow to `room` bytes; a write past it fails."""

    def limit() -> None:
        resource.setrlimit(resource.RLIMIT_FSIZE, (room, room))

    with tempfile.TemporaryFile() as file:
        seen = edge.call(words, out=file, before=limit, ignored=True)
        file.seek(0)
        return Seen(seen.status, file.read(), seen.err)


def closed_output(edge: Edge) -> None:
    """Standard output that is closed, and a pipe that nobody reads any more."""
    for words in WRITING:
        edge.want(
            f"{shown(words)}, output closed",
            edge.call(words, before=lambda: os.close(1)),
            Status.WRITE,
        )
        with unread_pipe() as pipe:
            edge.want(f"{shown(words)} to a closed pipe", edge.call(words, out=pipe), Status.WRITE)
    silent = [*RUN_DRIVE[:-1], "0"]
    edge.want(
        f"{shown(silent)}, output closed", edge.call(silent, before=lambda: os.close(1)), Status.OK
    )
    edge.want("no words, output closed", edge.call([], before=lambda: os.close(1)), Status.USAGE)


@contextlib.contextmanager
def unread_pipe() -> Iterator[int]:
    read, write = os.pipe()
    os.close(read)
    try:
        yield write
    finally:
        os.close(write)


def other_streams(edge: Edge) -> None:
    """The status doesn't depend on standard error or standard input."""

    def no_input_and_no_error() -> None:
        os.close(0)
        os.close(2)

    edge.want(
        "a run with output alone",
        edge.call(RUN_DRIVE, before=no_input_and_no_error),
        Status.OK,
        edge.example("drive.trace"),
    )
    edge.want(
        "usage with output alone",
        edge.call([], before=no_input_and_no_error),
        Status.USAGE,
        err=b"",
    )


def refused_memory(edge: Edge) -> None:
    """The longest trace has no room in little memory, and is compared in ample memory."""

    def little() -> None:
        resource.setrlimit(resource.RLIMIT_AS, (LITTLE_MEMORY, LITTLE_MEMORY))

    edge.want("the longest trace", edge.call(CHECK_LONGEST), Status.DIFFERS, b"differs line 1\n")
    edge.want(
        "the longest trace in little memory",
        edge.call(CHECK_LONGEST, before=little),
        Status.NO_MEMORY,
    )
    edge.want(
        "a run in little memory",
        edge.call(RUN_DRIVE, before=little),
        Status.OK,
        edge.example("drive.trace"),
    )


def eight_ports(edge: Edge) -> None:
    """Each of the eight threads has a port of its own, which shows its input and keeps its word."""
    dump = edge.call(["dump", "ports.toml", "--cycles", "100"])
    edge.want("a dump of eight ports", dump, Status.OK, out=None)
    latches = [line for line in dump.out.decode().splitlines() if " latch " in line]
    wanted = [f"T{k} latch {FIRST_INPUT * (k + 1) + k:08x}" for k in range(8)]
    if latches != wanted:
        edge.note("a dump of eight ports", "what the latches hold", latches, wanted)


GROUPS = [
    statuses,
    files,
    words_that_are_no_text,
    full_output,
    output_with_room,
    closed_output,
    other_streams,
    refused_memory,
    eight_ports,
]


def try_program(program: Path) -> Edge:
    """Does all rows over a program."""
    with tempfile.TemporaryDirectory(prefix="edge-") as folder:
        edge = Edge(program, Path(folder))
        write_files(edge)
        for group in GROUPS:
            group(edge)
    return edge


def main() -> int:
    parser = argparse.ArgumentParser(description=__doc__)
    parser.add_argument(
        "program",
        nargs="*",
        help="a built program (left out: what ./flexpret leaves, and both builds that rt ci leaves)",
    )
    given = parser.parse_args().program
    programs = [built_program(name) for name in given or [None]]
    if not given and BUILT_BY_RATTLE.is_file():
        programs.append(BUILT_BY_RATTLE)
    differences = 0
    for edge in map(try_program, programs):
        for difference in edge.differences:
            print(difference)
        print(
            f"{edge.program.name}: {edge.rows} calls at the edge of the program, {len(edge.differences)} differences"
        )
        differences += len(edge.differences)
    return 1 if differences else 0


if __name__ == "__main__":
    sys.exit(main())
