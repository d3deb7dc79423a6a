"""Reads the tables of rows: the files and command lines of a row."""
import shlex
from dataclasses import dataclass, field

from dev.program import TOP
from model.tables.forms import expanded

FOLDERS = tuple(TOP / "crates" / name / "data" for name in ("test_units", "test_commands"))


@dataclass
class Case:
    """A case of a table: its files, and its command lines with their statuses."""

    name: str
    files: dict[str, bytes] = field(default_factory=dict)
    lines: list[tuple[int, list[str]]] = field(default_factory=list)

    def setup(self) -> tuple[bytes, bytes] | None:
        """The case's setup and image, if it has both."""
        setup, image = self.files.get("a.toml"), self.files.get("a.fpx")
        return None if setup is None or image is None else (setup, image)


def lines_of(table: str) -> list[str]:
    """The lines of a table, of the one crate that has it."""
    (path,) = (folder / table for folder in FOLDERS if (folder / table).exists())
    return path.read_text().splitlines()


def cases(table: str) -> list[Case]:
    """The cases of a table in the format of commands.txt."""
    done: list[Case] = []
    heading, body = "", []
    for line in lines_of(table):
        if not line.startswith(("=== ", "--- ")):
            body.append(line)
            continue
        finish(done, heading, body)
        heading, body = line, []
    finish(done, heading, body)
    return done


def finish(done: list[Case], heading: str, body: list[str]) -> None:
    """Adds the lines under a heading to the last case, or begins one."""
    if heading.startswith("=== "):
        done.append(Case(heading[4:]))
    elif heading.startswith("--- text "):
        done[-1].files[heading[9:]] = "".join(f"{line}\n" for line in body).encode()
    elif heading.startswith("--- bytes "):
        done[-1].files[heading[10:]] = expanded("".join(body))
    elif " $ " in heading:
        status = heading[4:].split(" ", 1)[0]
        if status.isdecimal():
            done[-1].lines.append((int(status), shlex.split(heading.split(" $ ", 1)[1])))


def columns(table: str) -> list[list[str]]:
    """The columns of a table of lines, between tabs."""
    return [line.split("\t") for line in lines_of(table)]
