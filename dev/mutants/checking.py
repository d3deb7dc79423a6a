"""Checks of crates in a copy of the sources, and their messages about each function and each proof file."""
import enum
import os
import re
import shutil
import signal
import subprocess
import sys
from dataclasses import dataclass
from functools import cached_property
from pathlib import Path

from dev.program import TOP

SECONDS = 900
"""The time limit of a check. A change whose check takes longer is UNKNOWN."""

ROUNDS = 6
"""The most times that answers are removed for one change."""


class Verdict(enum.StrEnum):
    """The result of a check of a change."""

    NO_SOURCE = "not compiled"
    REFUSED = "refused"
    REFUSED_WITHOUT = "refused without answers"
    AT_LIMIT = "at a limit"
    PROVED = "proved"
    UNKNOWN = "unknown"


# ---------------------------------------------------------------- messages of a check

AT_PLACE = re.compile(r"(?:note: )?(?:\./)?(?P<file>[^\s:]+):(?P<line>\d+):\d+: ?(?P<said>.*)")
"""A line about a place in a file."""

GONE = re.compile(r"has no field|is not in scope|has no `|was not admitted")
"""The message about a name in a proof file that the change removed, or about a citation of such a proof."""

LIMIT = re.compile(
    r"antt ran out of (stack|the (steps|memory))|(outgrew the memory limit|stopped at the step limit) \("
)
OPEN_GOAL = re.compile(r"fn \S+: no proof: expected answers")
OF_FUNCTION = re.compile(r"fn (?P<symbol>\S+): (?P<said>.*)")
"""The last line about a function."""


@dataclass(frozen=True)
class Check:
    """The exit status of a check, and its lines."""

    status: int | None
    said: list[str]

    def is_proved(self) -> bool:
        return self.status == 0

    def is_refused(self) -> bool:
        return self.status == 1 and any(line.startswith("logic=not-proved") for line in self.said)

    @cached_property
    def functions(self) -> dict[str, str]:
        """The last message about each function, by its symbol."""
        return {
            found["symbol"]: found["said"] for found in map(OF_FUNCTION.match, self.said) if found
        }

    @cached_property
    def places(self) -> list[re.Match[str]]:
        """The lines about places."""
        return [match for match in map(AT_PLACE.match, self.said) if match]

    def told(self) -> list[re.Match[str]]:
        """The lines about places: only the errors, if there are any."""
        return [match for match in self.places if is_error(match)] or self.places

    def is_unread(self) -> bool:
        """Whether the sources were refused before any proof."""
        return self.status in (1, 2) and any("error[" in line for line in self.said)

    def stale(self) -> list[tuple[str, int]]:
        """The places in proof files that use removed names, if there is no other error."""
        return stale_of(self.told())

    def first(self) -> str:
        """The line with the most specific reason of the refusal."""
        goals = [line for line in self.said if OPEN_GOAL.match(line)]
        told = [match[0] for match in self.told()]
        return (goals or told or self.said[-1:] or [""])[0][:300]

    def verdict(self, without: bool) -> Verdict:
        if self.is_proved():
            return Verdict.PROVED
        if self.is_refused():
            return Verdict.REFUSED_WITHOUT if without else Verdict.REFUSED
        if self.status == 3 and any(map(LIMIT.search, self.said)):
            return Verdict.AT_LIMIT
        if self.is_unread():
            return Verdict.NO_SOURCE
        return Verdict.UNKNOWN


def is_error(told: re.Match[str]) -> bool:
    return "error" in told["said"] or told[0].startswith("note: ")


def stale_of(told: list[re.Match[str]]) -> list[tuple[str, int]]:
    """The places of these lines, if each is in a proof file and is about a removed name."""
    if not all("proofs/" in match["file"] and GONE.search(match["said"]) for match in told):
        return []
    return [(match["file"], int(match["line"])) for match in told]


class Bench:
    """A copy of the sources, in which changes are made and checked one after the other."""

    def __init__(self, folder: Path, seconds: float) -> None:
        self.folder, self.seconds = folder, seconds
        listed = subprocess.run(
            ["git", "ls-files", "-z", "crates", "crates.txt", "HANDLES"],
            cwd=TOP,
            check=True,
            stdout=subprocess.PIPE,
        )
        for name in filter(None, listed.stdout.decode().split("\0")):
            (folder / name).parent.mkdir(parents=True, exist_ok=True)
            shutil.copy2(TOP / name, folder / name)
        self.take_built()
        self.symbols: dict[str, list[str]] = {}

    def take_built(self) -> None:
        """Copies the results that checks have kept in the repository, if the copy has none. `rt` compares the contents of files."""
        for kept in (TOP / "crates").glob("*/out"):
            if not (self.folder / "crates" / kept.parent.name / "out").exists():
                subprocess.run(
                    ["cp", "-a", kept, self.folder / "crates" / kept.parent.name], check=True
                )

    def check(self, crate: str, *flags: str) -> Check:
        """Checks a crate, and ends the check where it takes too long."""
        with subprocess.Popen(
            ["rt", "check", *flags],
            cwd=self.folder / "crates" / crate,
            stdin=subprocess.DEVNULL,
            stdout=subprocess.PIPE,
            stderr=subprocess.STDOUT,
            text=True,
            errors="replace",
            process_group=0,
        ) as child:
            try:
                said, _ = child.communicate(timeout=self.seconds)
            except subprocess.TimeoutExpired:
                os.killpg(child.pid, signal.SIGKILL)
                said, _ = child.communicate()
                return Check(None, said.splitlines())
        return Check(child.returncode, said.splitlines())

    def prove_unchanged(self, crate: str) -> list[str]:
        """Checks the unchanged crate, once, since verdicts on changes need a crate that is proved. Returns its functions by their names."""
        if crate not in self.symbols:
            unchanged = self.check(crate)
            if not unchanged.is_proved():
                sys.exit(f"{crate} is not proved as it is:\n" + "\n".join(unchanged.said[-20:]))
            self.symbols[crate] = [
                symbol for symbol in unchanged.functions if symbol.startswith(f"{crate}::")
            ]
        return self.symbols[crate]

    def try_change(self, crate: str, file: str, text: str) -> tuple[Verdict, str, list[str]]:
        """The verdict on a file's new text, the reason, and the answers that were removed for it."""
        before = {file: self.read(file)}
        removed: list[str] = []
        (self.folder / file).write_text(text)
        try:
            for _ in range(ROUNDS):
                check = self.check(crate, "--jobs", "1")
                stale = check.stale() if check.is_refused() else []
                dropped = self.drop_answers(crate, stale, before)
                if not dropped:
                    break
                removed += dropped
            return check.verdict(bool(removed)), check.first(), removed
        finally:
            for name, content in before.items():
                (self.folder / name).parent.mkdir(parents=True, exist_ok=True)
                (self.folder / name).write_text(content)

    def read(self, file: str) -> str:
        return (self.folder / file).read_text()

    def drop_answers(
        self, crate: str, stale: list[tuple[str, int]], before: dict[str, str]
    ) -> list[str]:
        """Removes the answers at these places, and keeps the texts of their files in `before`."""
        dropped: list[str] = []
        for place in sorted({place for place, _ in stale}):
            file = f"crates/{crate}/{place}"
            if not (self.folder / file).is_file() or not place.endswith(
                ("Answers.antt", "Invariants.antt")
            ):
                return []
            text = self.read(file)
            before.setdefault(file, text)
            rest, gone = without_answers(text, {line for where, line in stale if where == place})
            dropped += [f"{place}: {name}" for name in gone]
            if " : goal." in rest:
                (self.folder / file).write_text(rest)
            else:
                (self.folder / file).unlink()
        return dropped


PARAGRAPH = re.compile(r"(?:[^\n]+\n)+")
"""A declaration of a proof file, or its imports: lines without an empty one between them."""


def without_answers(text: str, lines: set[int]) -> tuple[str, list[str]]:
    """A proof file without the paragraphs of these lines, and the first words of these paragraphs.

    A paragraph is a declaration, or the imports at the start. Of the imports only the bad one is removed.
    """
    kept, gone = [], []
    for paragraph in PARAGRAPH.finditer(text):
        rows = paragraph[0].splitlines(keepends=True)
        first = text.count("\n", 0, paragraph.start()) + 1
        bad = {k for k in range(len(rows)) if first + k in lines}
        if not bad:
            kept.append(paragraph[0])
        elif rows[0].startswith(("use ", "--")):
            kept.append("".join(row for k, row in enumerate(rows) if k not in bad))
            gone += [rows[k].strip() for k in sorted(bad)]
        else:
            gone.append(rows[0].partition(" :")[0].removeprefix("pub "))
    return "\n".join(kept), gone
