"""Measures the program: instructions as valgrind counts them, processor time and memory, each with the last
figure in docs/dev/MEASUREMENTS.md. Ends with 1 if a call takes over 5 % more instructions than there.
Needs valgrind and GNU time, and takes some minutes. It isn't part of the gate."""
import argparse
import os
import platform
import re
import shutil
import statistics
import subprocess
import sys
import tempfile
from collections.abc import Iterator, Sequence
from dataclasses import dataclass
from datetime import date
from pathlib import Path

from dev.measure import inputs
from dev.program import TOP, built_program
from fptools.program.status import Status

PAGE = TOP / "docs/dev/MEASUREMENTS.md"
BEGIN, END = "<!-- measure.py -->", "<!-- end of measure.py -->"
"""The lines of the page before and after the last figures."""

WORSE = 1.05
COUNTED, TIMED = 1_000_000, 20_000_000
"""Cycles of a run whose instructions are counted, and of one whose time is taken. `check` takes no more than the first."""

RUNS = (
    "drive:0",
    "drive:7",
    "plain:0",
    "plain:7",
    "mem:0",
    "mem:7",
    "sleep:0",
    "sleepsoft:0",
    "port:0",
    "port:7",
)
"""Setups with the thread whose lines are put; in plain, sleep and sleepsoft thread 7 has none."""

ALONE = ("drive:0", "plain:0")
"""The setups for `solo` and `check`."""


@dataclass(frozen=True)
class Item:
    """A call to measure. If it has cycles, its figures are per cycle, and its time may be measured over more cycles."""

    name: str
    words: Sequence[str]
    cycles: int = 0
    timed: Sequence[str] = ()
    timed_cycles: int = 0
    status: Status = Status.OK


@dataclass(frozen=True)
class Figures:
    """The figures of a call, now or the last time: with cycles, instructions per cycle and millions of cycles per second;
    without them, millions of instructions and milliseconds. The peak memory is in kilobytes."""

    steps: float
    pace: float
    memory: int

    def row(self, item: Item) -> str:
        of = "a cycle" if item.cycles else "million"
        pace = "million cycles a second" if item.cycles else "ms"
        return (
            f"| {item.name} | {self.steps:.1f} {of} | {self.pace:.1f} {pace} | {self.memory} KB |"
        )


def of_run(where: str) -> Item:
    setup, _, thread = where.partition(":")
    words = ["run", f"{setup}.toml", "--thread", thread, "--cycles"]
    return Item(f"run {where}", [*words, str(COUNTED)], COUNTED, [*words, str(TIMED)], TIMED)


def alone(where: str) -> Iterator[Item]:
    setup, _, thread = where.partition(":")
    words = [f"{setup}.toml", "--thread", thread, "--cycles", str(COUNTED)]
    yield Item(f"solo {where}", ["solo", *words], COUNTED)
    yield Item(f"check {where}", ["check", *words, "--trace", f"{setup}.trace"], COUNTED)


def of_section(
    name: str,
    command: str,
    setup: str,
    section: inputs.Section,
    *rest: str,
    status: Status = Status.OK,
) -> Item:
    """A bound; one that is too large for an answer is worked out in full, and refused."""
    words = [
        command,
        f"{setup}.toml",
        "--thread",
        "0",
        "--from",
        "0",
        "--to",
        str(section.to),
        *rest,
    ]
    return Item(name, words, status=status)


def items() -> Iterator[Item]:
    yield from map(of_run, RUNS)
    for where in ALONE:
        yield from alone(where)
    yield of_section("bound, 200 loops", "bound", "short", inputs.short_loops())
    yield of_section(
        "bound, 16,384 words, 256 loops", "bound", "largest", inputs.largest(), status=Status.BOUND
    )
    listed = ["--routines", "calls.routines"]
    yield of_section(
        "calls, 10,000 calls", "calls", "calls", inputs.many_calls(), *listed, status=Status.BOUND
    )
    yield Item("elf, 65,535 loads", ["elf", "loads.elf"])
    yield Item("asm, 100,000 labels", ["asm", "labels.s"])
    yield Item("asm, 1,048,576 empty lines", ["asm", "lines.s"])
    yield Item("selfrun", ["selfrun", "7"], 100_000)


def write_inputs(program: Path, folder: Path) -> None:
    """Puts all files that the calls read into a folder."""
    for source in (*(TOP / "dev/measure/setups").iterdir(), TOP / "examples/drive.s"):
        shutil.copy(source, folder)
    drive = (TOP / "examples/drive.toml").read_text()
    (folder / "drive.toml").write_text(drive.replace("examples/drive.fpx", "drive.fpx"))
    for source in folder.glob("*.s"):
        call(program, ["asm", source.name], folder, source.with_suffix(".fpx"))
    sections = {
        "short": inputs.short_loops(),
        "largest": inputs.largest(),
        "calls": inputs.many_calls(),
    }
    for name, section in sections.items():
        (folder / f"{name}.toml").write_text(section.setup().replace("a.fpx", f"{name}.fpx"))
        (folder / f"{name}.fpx").write_bytes(section.image())
        (folder / f"{name}.routines").write_text(section.listing())
    (folder / "loads.elf").write_bytes(inputs.executable())
    (folder / "labels.s").write_text(inputs.labels())
    (folder / "lines.s").write_text("\n" * (1 << 20))
    for where in ALONE:
        solo = next(alone(where))
        call(program, solo.words, folder, folder / f'{where.partition(":")[0]}.trace')


def call(program: Path, words: Sequence[str], folder: Path, out: Path) -> None:
    with out.open("wb") as written:
        subprocess.run([program, *words], cwd=folder, stdout=written, check=True)


def ended(command: Sequence[str | Path], item: Item, folder: Path) -> str:
    """Runs a command that calls the program, and returns its standard error; ends the script if the status is another one."""
    done = subprocess.run(
        command, cwd=folder, stdout=subprocess.DEVNULL, stderr=subprocess.PIPE, text=True
    )
    if done.returncode != item.status:
        sys.exit(f"{item.name}: status {done.returncode}, and not {item.status}\n{done.stderr}")
    return done.stderr


def count(program: Path, item: Item, folder: Path) -> int:
    """The instructions of a call."""
    tool: list[str | Path] = [
        "valgrind",
        "--tool=callgrind",
        "--callgrind-out-file=/dev/null",
        program,
    ]
    said = ended([*tool, *item.words], item, folder)
    return int(re.findall(r"Collected : (\d+)", said)[-1])


def seconds(program: Path, item: Item, folder: Path) -> float:
    """The processor time of a call."""
    with open(os.devnull, "wb") as sink:
        child = subprocess.Popen([program, *(item.timed or item.words)], cwd=folder, stdout=sink)
    used = os.wait4(child.pid, 0)[2]
    return float(used.ru_utime + used.ru_stime)


def memory(program: Path, item: Item, folder: Path) -> int:
    """The peak memory of a call in kilobytes. GNU time is small, so its own memory doesn't count."""
    told = folder / "memory"
    ended(
        ["time", "--quiet", "--format=%M", f"--output={told}", program, *item.words], item, folder
    )
    return int(told.read_text())


def measured(program: Path, item: Item, folder: Path, rounds: int) -> Figures:
    took = statistics.median(seconds(program, item, folder) for _ in range(rounds))
    cycles = item.timed_cycles or item.cycles
    pace = cycles / took / 1e6 if cycles else took * 1e3
    return Figures(
        count(program, item, folder) / (item.cycles or 1e6), pace, memory(program, item, folder)
    )


def last_figures(page: str) -> dict[str, Figures]:
    """The figures of the page, by the names of their items."""
    rows = re.findall(
        r"^\| (.+?) \| ([\d.]+) [a-z ]+ \| ([\d.]+) [a-z ]+ \| (\d+) KB \|$", page, re.MULTILINE
    )
    return {name: Figures(float(steps), float(pace), int(most)) for name, steps, pace, most in rows}


def tree() -> str:
    """The commit, and whether files differ from it."""
    git = ["git", "-C", str(TOP)]
    commit = subprocess.run(
        [*git, "rev-parse", "--short", "HEAD"], capture_output=True, text=True
    ).stdout.strip()
    changed = subprocess.run(
        [*git, "status", "--porcelain", "crates"], capture_output=True, text=True
    ).stdout
    return f"commit {commit}, with changes" if changed else f"commit {commit}"


def machine() -> str:
    names = re.findall(r"^model name\s*: (.*)$", Path("/proc/cpuinfo").read_text(), re.MULTILINE)
    return f"{os.cpu_count()} processors {names[0] if names else platform.machine()}"


def write_page(rows: Sequence[str], built_from: str, load: float) -> None:
    """Replaces the page's last figures by the rows."""
    dated = f"{date.today()}, {built_from}; {machine()}, load {load:.0f}:"
    head = [dated, "", "| call | instructions | pace | memory |", "|---|---|---|---|"]
    front, _, rest = PAGE.read_text().partition(f"{BEGIN}\n")
    PAGE.write_text("\n".join([front + BEGIN, *head, *rows, END + rest.partition(END)[2]]))


def told(item: Item, now: Figures, last: Figures | None) -> bool:
    """Prints a row with the last figures, and returns whether its instructions have risen by more than WORSE allows."""
    if last is None:
        print(f"{now.row(item)} new", flush=True)
        return False
    change = now.steps / last.steps
    fell = change > WORSE
    print(f'{now.row(item)} {100 * change - 100:+.1f} %{" FELL" if fell else ""}', flush=True)
    return fell


def main() -> int:
    parser = argparse.ArgumentParser(description=__doc__)
    parser.add_argument("--program", help="the program, else the one that ./flexpret built")
    parser.add_argument(
        "--tree", help="what the program was built from, if not from the files that stand here"
    )
    parser.add_argument("--only", default="", help="measures the calls whose names contain this")
    parser.add_argument(
        "--rounds", type=int, default=5, help="of how many times the median is taken (default: 5)"
    )
    parser.add_argument("--write", action="store_true", help="writes all figures into the page")
    chosen = parser.parse_args()
    program = built_program(chosen.program)
    last, load = last_figures(PAGE.read_text()), os.getloadavg()[0]
    rows, fallen = [], 0
    with tempfile.TemporaryDirectory() as made:
        folder = Path(made)
        write_inputs(program, folder)
        for item in items():
            if chosen.only in item.name:
                now = measured(program, item, folder, chosen.rounds)
                fallen += told(item, now, last.get(item.name))
                rows.append(now.row(item))
    if chosen.write and not chosen.only:
        write_page(rows, chosen.tree or tree(), load)
    return 1 if fallen else 0


if __name__ == "__main__":
    sys.exit(main())
