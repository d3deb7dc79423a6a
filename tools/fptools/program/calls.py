"""Calls of the program, or of a script that calls it."""
from __future__ import annotations

import errno
import os
import shutil
import subprocess
import sys
from dataclasses import dataclass, field
from pathlib import Path

from fptools.checkout import TOP
from fptools.program.answers import Bound, NoAnswer, Refusal, read_answer

BESIDE = TOP / "flexpret"
HELP = "the program; if left out, what the variable FLEXPRET names, or the ./flexpret of this repository"
BUILT = (
    "`./flexpret selfrun 1` in a checkout builds it: name that ./flexpret by FLEXPRET or --flexpret"
)
MODELLED = "FLEXPRET=fp_model answers by the model in Python, and nothing of that is proved"


class NoProgram(OSError):
    """There is no program by this name."""


def look_for(name: str, what: str, cure: str) -> None:
    """Raises `NoProgram`, with the cure, where no program has a name."""
    if shutil.which(name) is None:
        why = os.strerror(errno.EACCES if os.path.exists(name) else errno.ENOENT)
        raise NoProgram(f"{what} {name}: {why}: {cure}")


class RunFailed(Exception):
    """The program couldn't give the trace of a run."""


@dataclass(frozen=True)
class Answer:
    """An exit status with standard output, which is the answer, and standard error, without line feeds
    at their ends."""

    status: int
    text: str
    errors: str = ""

    @property
    def reason(self) -> str:
        """Why there is no number: the refusal; where there is none, what standard error says."""
        return self.text or self.errors

    def read(self) -> Bound | Refusal:
        """The bound or the refusal. A bound of a program that failed is a `NoAnswer`."""
        found = read_answer(self.text)
        if isinstance(found, Bound) and self.status:
            raise NoAnswer(f"a bound with status {self.status}")
        return found

    @property
    def bound(self) -> int | None:
        """The cycles of a bound; None for a refusal, or another text."""
        try:
            found = self.read()
        except NoAnswer:
            return None
        return found.cycles if isinstance(found, Bound) else None


@dataclass(frozen=True)
class Flexpret:
    """The program by its name."""

    path: str
    _told: set[str] = field(
        default_factory=set, compare=False, repr=False
    )  # lines of standard error

    @classmethod
    def named(cls, path: str | None, is_needed: bool = True) -> Flexpret:
        """The program of an option, else of the variable, else of this repository. Raises `NoProgram`."""
        name = (
            path or os.environ.get("FLEXPRET") or (str(BESIDE) if BESIDE.is_file() else "flexpret")
        )
        found = cls(name)
        if is_needed:
            found.look()
        return found

    def look(self) -> None:
        """Raises `NoProgram` where there is none by the name."""
        look_for(self.path, "the program", f"{BUILT}. {MODELLED}")

    def ask(self, *words: str) -> Answer:
        """The answer to a command. What standard error says besides an answer is handed on, each line once."""
        self.look()
        ran = subprocess.run([self.path, *words], capture_output=True, text=True, check=False)
        answer = Answer(ran.returncode, ran.stdout.strip(), ran.stderr.strip())
        if answer.status == 0:
            for line in answer.errors.splitlines():
                if line not in self._told:
                    self._told.add(line)
                    print(line, file=sys.stderr)
        return answer

    def bound(self, setup: Path, thread: int, start: int, end: int) -> Answer:
        return self.ask("bound", str(setup), *_section(thread, start, end))

    def calls(self, setup: Path, thread: int, start: int, end: int, routines: Path) -> Answer:
        return self.ask(
            "calls", str(setup), *_section(thread, start, end), "--routines", str(routines)
        )


def _section(thread: int, start: int, end: int) -> list[str]:
    return ["--thread", str(thread), "--from", hex(start), "--to", hex(end)]
