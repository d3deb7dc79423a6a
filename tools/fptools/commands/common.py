"""What the commands share: their parsers of arguments, and how a call ends."""

import argparse
import os
import sys
from pathlib import Path

from fptools.limits import THREADS
from fptools.program.status import CANNOT


class Parser(argparse.ArgumentParser):
    """A parser with the usual kinds of options."""

    def flag(self, name: str, words: str) -> None:
        """Adds an option without a value."""
        self.add_argument(name, action="store_true", help=words)

    def path(self, name: str, words: str, metavar: str | None = None) -> None:
        """Adds a file, or an option whose value is one."""
        self.add_argument(name, type=Path, metavar=metavar, help=words)

    def many(self, name: str, metavar: str, words: str) -> None:
        """Adds an option that may be repeated."""
        self.add_argument(name, action="append", default=[], metavar=metavar, help=words)

    def thread(self, words: str) -> None:
        """Adds the option for a thread."""
        self.add_argument("--thread", type=int, choices=range(THREADS), metavar="I", help=words)

    def period(self, default: int) -> None:
        """Adds the option for the nanoseconds of a cycle."""
        words = f"nanoseconds of a cycle, if no setup is given ({default})"
        self.add_argument("--period", type=int, choices=range(1, 1001), metavar="N", help=words)


def new_parser(description: str | None, name: str | None = None) -> Parser:
    """A parser whose help has the description as it is written. A call without standard output ends here."""
    if sys.stdout is None:
        sys.exit(failed(name or Path(sys.argv[0]).name, "standard output is closed", CANNOT))
    form = argparse.RawDescriptionHelpFormatter
    return Parser(prog=name, description=description, formatter_class=form)


def failed(name: str, fault: object, status: int = CANNOT) -> int:
    """Reports in one line why a command ends with a status, and returns it."""
    print(f"{name}: {fault}", file=sys.stderr)
    return status


def let_reader_go() -> None:
    """Drops what is still to be written, since the reader of standard output has stopped."""
    os.dup2(os.open(os.devnull, os.O_WRONLY), sys.stdout.fileno())
