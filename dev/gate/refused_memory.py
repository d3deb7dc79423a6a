"""Refuses the program one allocation at a time, over a command line of each command: it must answer as with ample memory, or
end with status 9 and write nothing. Either by `rt try --fail-alloc N`, which proves nothing and builds once for each number, in a
minute or more; or, with --built, every number of each row on the built program, by a library that is loaded before the C
library (needs cc). Prints a table, and ends with 1 if a call does anything else. The gate calls it with --built."""
import argparse
import re
import subprocess
import sys
import tempfile
from collections.abc import Iterator
from dataclasses import dataclass, field
from pathlib import Path

from dev.program import TOP, built_program, complaint
from fptools.program.status import Status
from dev.gate.tables import cases

SECONDS = 3600
"""The time of a call; `rt try` builds first."""


@dataclass(frozen=True)
class Row:
    """A command line and the files that it reads, all below a folder with its name."""

    name: str
    words: list[str]
    files: dict[str, bytes]


@dataclass(frozen=True)
class Answer:
    """A status and the output."""

    status: int
    out: bytes


@dataclass
class Tally:
    """The results of the refusals of a row."""

    tried: int = 0
    refused: int = 0
    own: int = 0
    wrong: list[str] = field(default_factory=list)

    def add(self, number: int, answer: Answer, ample: Answer) -> None:
        self.tried += 1
        if answer == ample:
            self.own += 1
        elif answer == Answer(Status.NO_MEMORY, b""):
            self.refused += 1
        else:
            self.wrong.append(
                f"allocation {number}: status {answer.status}, {len(answer.out)} bytes: {answer.out[:80]!r}"
            )


# ---------------------------------------------------------------- the rows


def example_files(*names: str) -> dict[str, bytes]:
    return {f"examples/{name}": (TOP / "examples" / name).read_bytes() for name in names}


def case_files(table: str, name: str) -> dict[str, bytes]:
    """The files of a case of the rows' tables, each with its last text."""
    return next(case.files for case in cases(table) if case.name == name)


IMAGE = re.compile(rb'^image = "', re.MULTILINE)


def row_of(words: list[str], files: dict[str, bytes]) -> Row:
    """A row with its files below a folder with the command's name, also in the names in arguments and setups."""
    name = words[0]
    placed = {
        f"{name}/{file}": IMAGE.sub(b'image = "%s/' % name.encode(), content)
        if file.endswith(".toml")
        else content
        for file, content in files.items()
    }
    return Row(name, [f"{name}/{word}" if word in files else word for word in words], placed)


def rows() -> list[Row]:
    """A control loop's trace, a loop's bound, a source, a dump, and a line of each other command."""
    drive = example_files("drive.toml", "drive.fpx")
    of_drive = ["examples/drive.toml", "--thread", "0", "--cycles", "77"]
    section = ["--thread", "0", "--from", "0x8", "--to", "0x18"]
    return [
        row_of(["run", *of_drive], drive),
        row_of(
            ["bound", "a.toml", "--thread", "0", "--from", "0", "--to", "8"],
            case_files("commands.txt", "a loop of ten rounds"),
        ),
        row_of(["asm", "a.s"], case_files("commands.txt", "sources")),
        row_of(
            ["dump", "a.toml", "--cycles", "5"],
            case_files("worked.txt", "no cycle and the first retired one"),
        ),
        row_of(["solo", *of_drive], drive),
        row_of(
            ["check", *of_drive, "--trace", "examples/drive.trace"],
            drive | example_files("drive.trace"),
        ),
        row_of(
            ["phases", "a.toml", "--cycles", "40"],
            case_files("commands.txt", "settings of slots and modes"),
        ),
        row_of(
            ["calls", "examples/calls.toml", *section, "--routines", "examples/calls.routines"],
            example_files("calls.toml", "calls.fpx", "calls.routines"),
        ),
        row_of(["elf", "examples/c/pid.elf"], example_files("c/pid.elf")),
        row_of(["selfrun", "1"], {}),
    ]


def write_files(row: Row, folder: Path) -> None:
    for name, content in row.files.items():
        (folder / name).parent.mkdir(parents=True, exist_ok=True)
        (folder / name).write_bytes(content)


# ---------------------------------------------------------------- by rt try

ENDED = re.compile(r"^case=(\S+) run=ended status=(\d+) .*proved=no$", re.MULTILINE)
WRITTEN = re.compile(rb"^== (\S+)\n", re.MULTILINE)


class Tried:
    """The program as `rt try` builds and runs it: all rows with one build."""

    def __init__(self, some: list[Row], folder: Path) -> None:
        self.cases = folder / "cases"
        self.cases.mkdir()
        self.data = [
            word
            for row in some
            for name in row.files
            for word in ("--data", f"{name}={folder / name}")
        ]
        for row in some:
            (self.cases / row.name).write_bytes(b"")
            (self.cases / f"{row.name}.args").write_text("".join(f"{word}\n" for word in row.words))

    def answers(self, number: int) -> dict[str, Answer]:
        """The result of each row with this allocation refused; 0 for none."""
        fail = ["--fail-alloc", str(number)] if number else []
        ended = subprocess.run(
            ["rt", "try", *self.data, *fail, "--cases", self.cases],
            cwd=TOP / "crates/flexpret_cli",
            stdin=subprocess.DEVNULL,
            capture_output=True,
            timeout=SECONDS,
        )
        said = ended.stderr.decode(errors="replace")
        statuses = {name: int(status) for name, status in ENDED.findall(said)}
        parts = WRITTEN.split(ended.stdout)
        written = {name.decode(): out for name, out in zip(parts[1::2], parts[2::2])}
        if not statuses or statuses.keys() != written.keys():
            sys.exit(f"rt try gave no answer to allocation {number}:\n" + said[-2000:])
        return {name: Answer(status, written[name]) for name, status in statuses.items()}


# ---------------------------------------------------------------- on the built program


class Preloaded:
    """The built program with a library before the C library's allocations."""

    def __init__(self, program: Path, folder: Path) -> None:
        self.program, self.folder = program, folder
        self.library, self.count = folder / "refuse.so", folder / "count"
        subprocess.run(
            ["cc", "-O1", "-shared", "-fPIC", "-o", self.library, TOP / "dev/gate/refuse.c"],
            check=True,
        )

    def answer(self, row: Row, number: int) -> Answer:
        """The result of a row with this allocation refused; 0 for none. Standard error must have the line of the status."""
        env = {
            "LD_PRELOAD": str(self.library),
            "REFUSE": str(number),
            "REFUSE_COUNT": str(self.count),
        }
        ended = subprocess.run(
            [self.program, *row.words],
            cwd=self.folder,
            env=env,
            stdin=subprocess.DEVNULL,
            capture_output=True,
            timeout=SECONDS,
        )
        if ended.stderr != complaint(ended.returncode):
            return Answer(ended.returncode, b"standard error: " + ended.stderr)
        return Answer(ended.returncode, ended.stdout)

    def asked(self) -> int:
        """The number of allocations of the last call."""
        return int(self.count.read_text())


# ---------------------------------------------------------------- the whole


def refuse_every(program: Path, some: list[Row], folder: Path) -> Iterator[tuple[Row, Tally]]:
    """Refuses every allocation of a row, on the built program."""
    preloaded = Preloaded(program, folder)
    for row in some:
        tally, ample = Tally(), preloaded.answer(row, 0)
        for number in range(1, preloaded.asked() + 1):
            tally.add(number, preloaded.answer(row, number), ample)
        yield row, tally


def refuse_some(some: list[Row], folder: Path) -> Iterator[tuple[Row, Tally]]:
    """Refuses the first eight allocations, by `rt try`."""
    tried = Tried(some, folder)
    ample = tried.answers(0)
    tallies = {row.name: Tally() for row in some}
    for number in range(1, 9):
        for name, answer in tried.answers(number).items():
            tallies[name].add(number, answer, ample[name])
    yield from ((row, tallies[row.name]) for row in some)


def main() -> int:
    parser = argparse.ArgumentParser(description=__doc__)
    parser.add_argument(
        "--built", action="store_true", help="refuse every allocation on the built program"
    )
    parser.add_argument(
        "--program", help="the built program (left out: the one that ./flexpret and rt ci leave)"
    )
    options = parser.parse_args()
    some = rows()
    wrong = 0
    with tempfile.TemporaryDirectory(prefix="refused-") as name:
        folder = Path(name)
        for row in some:
            write_files(row, folder)
        every = (
            refuse_every(built_program(options.program), some, folder) if options.built else None
        )
        print(f'{"":8}{"refusals":>10}{"status 9":>10}{"own answer":>12}{"else":>6}')
        for row, tally in every or refuse_some(some, folder):
            print(
                f"{row.name:8}{tally.tried:10}{tally.refused:10}{tally.own:12}{len(tally.wrong):6}",
                flush=True,
            )
            for line in tally.wrong:
                print(f"  {line}")
            wrong += len(tally.wrong)
    return 1 if wrong else 0


if __name__ == "__main__":
    sys.exit(main())
