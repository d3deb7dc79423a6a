"""All that ./test runs: `rt ci`, and then the parts of `parts`, as many at once as there are processors.

A whole run leaves a record in out/test.json, which tools/fp_evidence shows. A part whose modules or commands aren't installed is skipped, and its line lists them. As root the script first installs missing
ones by `apt-get`. The status is 0 if nothing failed.
"""
from __future__ import annotations

import argparse
import contextlib
import json
import os
import re
import shlex
import shutil
import subprocess
import sys
import tempfile
import time
from collections import Counter
from collections.abc import Iterable, Iterator, Sequence
from concurrent.futures import ThreadPoolExecutor, as_completed
from dataclasses import dataclass, field
from datetime import UTC, datetime
from pathlib import Path

from dev.gate.parts import COMMANDS, MODULES, OPTIONAL, PROGRAMS, Part, parts
from dev.program import TOP

from fptools.launch.up_to_date import Checkout, changes_of, kit_line, said_by

APT_SECONDS = 600
"""The time limit of a call of apt-get."""

PART_SECONDS = 3600
"""The time limit of a part. One that takes longer has failed."""

SHOWN = 60
"""The last lines of a failed part that are printed."""

CI_LINE = re.compile(r"^(\d+) passed, (\d+) failed")
PYTEST_LINE = re.compile(
    r"^(?=.* in [\d.]+s)(?:=+ )?(?:(\d+) failed)?(?:, )?(?:(\d+) passed)?(?:, )?(?:(\d+) skipped)?(?:.*?(\d+) errors?)?",
    re.M,
)
SKIPPED = re.compile(r"^SKIPPED \[(\d+)\] \S+ (.*)$", re.M)
DONE = re.compile(r"^(as shown|as stored|as here|holds|same): ", re.M)
DIFFERS = re.compile(r"^(differs|FAILS): ", re.M)
COMPARED = re.compile(
    r"^.*: (?P<done>\d+) (?:compared|calls at the edge of the program)(?:, \d+ not)?, (?P<differ>\d+) differ",
    re.M,
)
"""A line of a script that compares many rows."""


@dataclass
class Sum:
    """The numbers of tests that passed and failed, and the reasons of skipped ones."""

    passed: int = 0
    failed: int = 0
    skipped: list[tuple[int, str]] = field(default_factory=list)

    def add(self, other: Sum) -> None:
        self.passed += other.passed
        self.failed += other.failed
        self.skipped += other.skipped

    def reasons(self) -> Counter[str]:
        """The number of skipped tests for each reason."""
        reasons: Counter[str] = Counter()
        for count, why in self.skipped:
            reasons[why] += count
        return reasons

    def line(self) -> str:
        skipped = sum(count for count, _ in self.skipped)
        return f"{self.passed} passed, {self.failed} failed" + (
            f", {skipped} skipped" if skipped else ""
        )


# ---------------------------------------------------------------- what is installed


def has_modules(python: str, modules: Iterable[str]) -> bool:
    tried = subprocess.run(
        [python, "-c", f'import sys, {", ".join(modules)}; sys.exit(sys.version_info < (3, 11))'],
        capture_output=True,
        check=False,
    )
    return tried.returncode == 0


def interpreter(modules: Sequence[str]) -> str:
    """The first Python that has these modules, or else this one."""
    for python in (os.environ.get("PYTHON"), sys.executable, "/usr/bin/python3"):
        if python and Path(python).is_file() and has_modules(python, modules):
            return python
    return sys.executable


def missing_packages() -> list[str]:
    """The Debian packages of missing modules and commands."""
    packages = [package for command, package in COMMANDS.items() if shutil.which(command) is None]
    if not has_modules(interpreter(list(MODULES)), MODULES):
        packages += MODULES.values()
    return packages


def install(packages: Sequence[str]) -> None:
    """Installs packages by apt-get, as root on Debian. The tests go on without those that it can't install."""
    if not packages or os.geteuid() != 0 or shutil.which("apt-get") is None:
        return
    print(f'./test: apt-get install {" ".join(packages)}', flush=True)
    options = ["-o", "Acquire::Retries=0", "-o", "Acquire::http::Timeout=20"]
    quiet = {**os.environ, "DEBIAN_FRONTEND": "noninteractive"}
    for words in (["update"], ["install", "-y", "--no-install-recommends", *packages]):
        try:
            ran = subprocess.run(
                ["apt-get", "-qq", *options, *words],
                env=quiet,
                stdin=subprocess.DEVNULL,
                capture_output=True,
                text=True,
                timeout=APT_SECONDS,
                check=False,
            )
        except subprocess.TimeoutExpired:
            print(
                f"./test: apt-get {words[0]} had not ended after {APT_SECONDS} seconds", flush=True
            )
            return
        if ran.returncode:
            said = (ran.stderr.strip().splitlines() or [f"status {ran.returncode}"])[-1]
            print(f"./test: apt-get {words[0]} failed: {said}", flush=True)


# ---------------------------------------------------------------- rt ci


@contextlib.contextmanager
def stamped() -> Iterator[None]:
    """Records the sources of each program that is built within this context, if no source changes meanwhile."""
    before = {crate: Checkout(TOP, crate).listed() for crate in PROGRAMS.values()}
    with tempfile.NamedTemporaryFile(prefix=".test-", dir=TOP) as started:
        begun = os.stat(started.name).st_mtime_ns
    yield
    for crate, sources in before.items():
        checkout = Checkout(TOP, crate)
        is_new = checkout.program.is_file() and checkout.program.stat().st_mtime_ns >= begun
        if is_new and checkout.listed() == sources:
            checkout.write_stamp(kit_line(), sources)


@dataclass
class Ci:
    """What `rt ci` printed: the crates that are proved, the mutants that the proofs refused, and its line on both. It has that line
    only if all is well. It may have kept proofs of the same files from earlier runs, as the line says then.
    """

    sum: Sum = field(default_factory=Sum)
    crates: set[str] = field(default_factory=set)
    refused: int = 0
    well: str = ""
    is_run: bool = True
    """Whether it could be started."""

    def read(self, line: str) -> None:
        if found := re.match(r"rt: (\w+) proved", line):
            self.crates.add(found[1])
        elif found := re.match(r"rt: (ok;.*must-fail edits: (\d+) refused.*)", line):
            self.well, self.refused = found[1], int(found[2])
            self.crates.update(Checkout(TOP, "flexpret_cli").libraries())


def run_ci() -> Ci:
    """Runs `rt ci` and prints its lines as they come. If `rt` can't be started, one line says why, and one test has failed."""
    last, said = "", Ci()
    try:
        child = subprocess.Popen(
            ["rt", "ci"],
            cwd=TOP,
            stdin=subprocess.DEVNULL,
            stdout=subprocess.PIPE,
            text=True,
            errors="replace",
        )
    except OSError as fault:
        print(
            f"./test: rt ci can't be run ({fault.strerror}): put rt of the kit that README.md names on the PATH, or leave it out by --no-ci",
            flush=True,
        )
        return Ci(Sum(failed=1), is_run=False)
    with child:
        assert child.stdout
        for line in child.stdout:
            print(line, end="", flush=True)
            last = line
            said.read(line)
    found = CI_LINE.match(last)
    said.sum = Sum(int(found[1]), int(found[2])) if found else Sum(failed=1)
    if child.returncode and not said.sum.failed:
        said.sum.failed = 1
    return said


# ---------------------------------------------------------------- the record

RECORD = TOP / "out" / "test.json"
"""What a whole run leaves, for fp_evidence."""


def here() -> tuple[str, list[str]]:
    """The commit of this checkout, and its tracked files that differ from it."""
    return said_by(["git", "rev-parse", "HEAD"], TOP), list(changes_of(TOP))


def write_record(
    began: tuple[str, list[str]], ci: Ci, done: dict[str, Sum], total: Sum, path: Path | None = None
) -> None:
    """Writes the record of a whole run. One during which the checkout changed leaves none."""
    path = path or RECORD
    path.unlink(missing_ok=True)
    if here() != began:
        return
    record = {
        "commit": began[0],
        "changes": began[1],
        "kit": kit_line(),
        "ended": datetime.now(UTC).strftime("%Y-%m-%d %H:%M UTC"),
        "last": total.line(),
        "ci": ci.sum.line(),
        "well": ci.well,
        "crates": sorted(ci.crates),
        "refused": ci.refused,
        "parts": {name: done[name].line() for name in sorted(done)},
        "skipped": [f"{count}: {why}" for why, count in sorted(total.reasons().items())],
    }
    path.parent.mkdir(exist_ok=True)
    path.write_text(json.dumps(record, indent=1) + "\n")


# ---------------------------------------------------------------- the other parts


@dataclass(frozen=True)
class Place:
    """The Python that the tests run by, the environment that they get, and whether the programs are built."""

    python: str
    environment: dict[str, str]
    built: bool

    def lacks(self, part: Part) -> str:
        """The missing needs of a part, in words, or nothing."""
        modules = [name for name in part.modules if not has_modules(self.python, [name])]
        commands = [name for name in part.commands if shutil.which(name) is None]
        packages = [MODULES[name] for name in modules] + [
            COMMANDS[name] for name in commands if name in COMMANDS
        ]
        words = [f"{name} is not installed" for name in (*modules, *commands)]
        if part.programs and not self.built:
            words.append("the programs are not built")
        return ", ".join(words) + (f' (Debian: {" ".join(packages)})' if packages else "")


def tests_in(folders: str) -> int:
    """The number of test functions in folders."""
    files = [file for folder in folders.split() for file in (TOP / folder).rglob("test_*.py")]
    return sum(len(re.findall(r"^def test_", file.read_text(), re.M)) for file in files)


def counted(part: Part, status: int, said: str) -> Sum:
    """The tests of a part that ran."""
    found = Sum()
    skipped = [(int(count), why) for count, why in SKIPPED.findall(said)]
    if part.tests:
        lines = [line for line in PYTEST_LINE.finditer(said) if any(line.groups())]
        numbers = [int(number or 0) for number in lines[-1].groups()] if lines else [0, 0, 0, 0]
        found = Sum(numbers[1], numbers[0] + numbers[3], skipped)
    elif COMPARED.search(said):
        rows = [(int(row["done"]), int(row["differ"])) for row in COMPARED.finditer(said)]
        found = Sum(sum(done - differ for done, differ in rows), sum(differ for _, differ in rows))
    elif DONE.search(said) or DIFFERS.search(said):
        found = Sum(len(DONE.findall(said)), len(DIFFERS.findall(said)))
    else:
        found = Sum(passed=int(status == 0 and not skipped), skipped=skipped)
    if status and not found.failed:
        found.failed = 1
    return found


def run_part(part: Part, place: Place) -> tuple[Part, Sum, str, float]:
    """Runs a part, and returns its tests, its output, and its seconds."""
    lacks = place.lacks(part)
    if lacks:
        return (
            part,
            Sum(skipped=[(tests_in(part.tests) if part.tests else 1, f"{part.name}: {lacks}")]),
            "",
            0,
        )
    begun = time.monotonic()
    command = [word.replace("{python}", place.python) for word in part.command]
    try:
        ran = subprocess.run(
            command,
            cwd=TOP,
            env=place.environment,
            stdin=subprocess.DEVNULL,
            stdout=subprocess.PIPE,
            stderr=subprocess.STDOUT,
            text=True,
            errors="replace",
            timeout=PART_SECONDS,
            check=False,
        )
        status, said = ran.returncode, ran.stdout
    except subprocess.TimeoutExpired as ended:
        said = (
            (ended.stdout or b"").decode(errors="replace")
            if isinstance(ended.stdout, bytes)
            else ended.stdout or ""
        )
        status, said = 1, f"{said}\nhad not ended after {PART_SECONDS} seconds"
    return part, counted(part, status, said), said, time.monotonic() - begun


def environment(python: str, folder: Path) -> dict[str, str]:
    """The environment of the parts: the programs by name, and this Python as `python3`."""
    wrapper = folder / "python3"
    wrapper.write_text(f'#!/bin/sh\nexec {shlex.quote(python)} "$@"\n')
    wrapper.chmod(0o755)
    named = {
        name: str(program_of(crate))
        for name, crate in PROGRAMS.items()
        if program_of(crate).is_file()
    }
    return {**os.environ, **named, "PATH": f'{folder}:{os.environ["PATH"]}'}


def program_of(crate: str) -> Path:
    return TOP / "crates" / crate / "out" / crate


def run_parts(
    chosen: Sequence[Part], place: Place, jobs: int
) -> Iterator[tuple[Part, Sum, str, float]]:
    """Runs parts, `jobs` at once, and yields each as it ends."""
    with ThreadPoolExecutor(jobs) as pool:
        for done in as_completed([pool.submit(run_part, part, place) for part in chosen]):
            yield done.result()


def arguments() -> argparse.Namespace:
    parser = argparse.ArgumentParser(
        prog="./test", description=__doc__, formatter_class=argparse.RawDescriptionHelpFormatter
    )
    parser.add_argument(
        "--only",
        action="append",
        metavar="PART",
        help="runs this part alone, without rt ci; may be repeated",
    )
    parser.add_argument(
        "--no-ci",
        action="store_true",
        help="leaves rt ci out: all else, over the programs that are there",
    )
    parser.add_argument("--no-install", action="store_true", help="installs nothing by apt-get")
    parser.add_argument(
        "--list", action="store_true", help="prints the names of the parts, and runs nothing"
    )
    parser.add_argument(
        "--jobs",
        type=int,
        default=os.cpu_count() or 1,
        metavar="N",
        help="how many parts run at once",
    )
    return parser.parse_args()


def chosen_parts(options: argparse.Namespace) -> list[Part]:
    every = parts(options.jobs)
    for name in options.only or []:
        if name not in [part.name for part in every]:
            sys.exit(
                f'./test: --only {name}: the parts are {", ".join(part.name for part in every)}'
            )
    return [part for part in every if not options.only or part.name in options.only]


def main() -> int:
    options = arguments()
    chosen = chosen_parts(options)
    if options.list:
        print("\n".join(part.name for part in chosen))
        return 0
    total, ci, done, began = Sum(), Ci(), dict[str, Sum](), here()
    is_whole = not options.only and not options.no_ci
    if is_whole:
        with stamped():
            ci = run_ci()
            total.add(ci.sum)
    if not options.no_install:
        install(missing_packages())
    with tempfile.TemporaryDirectory(prefix="test-") as folder:
        python = interpreter(list(MODULES))
        if not has_modules(python, MODULES):
            python = interpreter([name for name in MODULES if name not in OPTIONAL])
        place = Place(
            python,
            environment(python, Path(folder)),
            all(program_of(crate).is_file() for crate in PROGRAMS.values()),
        )
        if not has_modules(python, ["xdist"]):
            chosen = [part for part in parts(1) if part.name in [one.name for one in chosen]]
        for part, found, said, seconds in run_parts(chosen, place, options.jobs):
            if found.failed:
                print("\n".join([f"== {part.name}", *said.splitlines()[-SHOWN:]]))
            print(f"{part.name}: {found.line()}, {seconds:.0f} seconds", flush=True)
            total.add(found)
            done[part.name] = found
    if is_whole and ci.is_run:
        write_record(began, ci, done, total)
    for why, count in total.reasons().items():
        print(f"skipped: {count}: {why}")
    print(total.line())
    return 1 if total.failed else 0


if __name__ == "__main__":
    sys.exit(main())
