"""The evidence for budgets: the question, the answers, the program, and what they stand on.

Nothing of it is dated but by commits and records, so that the same input gives the same bytes."""

import hashlib
import json
from dataclasses import dataclass
from pathlib import Path
from typing import Sequence

from fptools.launch.up_to_date import (
    Checkout,
    changes_of,
    commit_of,
    kit_line,
    read_stamp,
    said_by,
)
from fptools.budget.files import Result
from fptools.checkout import TOP
from fptools.evidence.clauses import Clause, Crates, Definition, NoClause, digest
from fptools.program.calls import BESIDE, Flexpret
from fptools.files.setup import Setup
from fptools.stack.stacks import Stack
from fptools.files.toml import read_toml
from fptools.untyped import Values

DATA = Path(__file__).resolve().parent / "evidence.toml"
RECORD = TOP / "out/test.json"
"""What the last whole ./test of this checkout left."""

MODEL = "fp_model"
NOT_PROVED = "the model in Python: nothing of these answers is proved"
NO_STAMP = "no record says from which sources it was built"


@dataclass(frozen=True)
class Input:
    """A file that was read: its name in the folder, its own name, and its checksum."""

    what: str
    copy: str
    name: str
    data: bytes

    @property
    def sum(self) -> str:
        return hashlib.sha256(self.data).hexdigest()


@dataclass(frozen=True)
class Promise:
    """A promise with its clauses, and the definitions that they stand on."""

    name: str
    says: str
    conditions: str
    clauses: tuple[Clause, ...]
    definitions: tuple[Definition, ...]
    read: str  # the checksum at which the sentence was read against the clauses

    @property
    def lines(self) -> int:
        """The lines of its definitions that are to be read."""
        return sum(it.lines for it in self.definitions)

    @property
    def digest(self) -> str:
        return digest(self.clauses, self.definitions)


@dataclass(frozen=True)
class Comparison:
    """A comparison with something that the project didn't make."""

    other: str
    what: str
    number: int
    commit: str
    date: str
    part: str
    repeat: str


@dataclass(frozen=True)
class Origin:
    """Where the program and this checkout come from."""

    commit: str
    date: str  # of the commit
    changes: tuple[str, ...]  # tracked files that differ from the commit
    kit: str
    program: str  # what it is, in words
    program_sum: str
    is_proved: bool  # whether a record says that the kit built it of sources that it has proved
    sources: tuple[tuple[str, str], ...]  # the sources of the program here: name and checksum

    @property
    def sources_text(self) -> str:
        """The sources as `sha256sum` lists them."""
        return "".join(f"{total}  {name}\n" for name, total in self.sources)

    @property
    def sources_sum(self) -> str:
        return hashlib.sha256(self.sources_text.encode()).hexdigest()


@dataclass(frozen=True)
class Evidence:
    """All that a folder of evidence has."""

    origin: Origin
    inputs: tuple[Input, ...]
    command: str
    setup: Setup
    results: tuple[Result, ...]
    stacks: tuple[Stack, ...]
    recorded: tuple[tuple[str, str], ...]  # the executable's own sources, as it records them
    promises: tuple[Promise, ...]
    trusted: tuple[tuple[str, str], ...]
    comparisons: tuple[Comparison, ...]
    gate: Values | None  # what ./test recorded


def read_data(path: Path = DATA) -> Values:
    """The tables of evidence.toml. What pip or tools/install.sh installs has none."""
    if not path.is_file():
        raise NoClause(
            f"{path} isn't there: evidence needs the repository, whose sources it quotes"
        )
    _, values = read_toml(path)
    return values


def promises_of(values: Values, top: Path = TOP) -> list[Promise]:
    """The promises, each with its clauses as they are in the sources now."""
    crates = Crates(top)
    traits = [crates.definition(file, name) for name, file in values["traits"].items()]
    found = []
    for table in values["promise"]:
        clauses = [clause_at(crates, it) for it in table["clauses"]]
        also = [it for it in traits if it.name in traits_of(clauses)]
        defined = tuple(crates.closure(clauses, also))
        found.append(
            Promise(
                table["name"], table["says"], table["if"], tuple(clauses), defined, table["read"]
            )
        )
    return found


def clause_at(crates: Crates, place: str) -> Clause:
    """A clause by file, function and, if it has one, name; or a field `RECORD.FIELD` of it."""
    file, function, *names = place.split()
    clause = crates.clause(file, function, names[0] if names else "")
    return crates.field(clause, names[1]) if len(names) > 1 else clause


def traits_of(clauses: Sequence[Clause]) -> set[str]:
    """The traits whose members clauses name: of files and sinks by F and K."""
    text = " ".join(f"{it.around} {it.text}" for it in clauses)
    members = {"F.": "Files", "K.": "Sink", "latched": "Port", "response": "Plant"}
    return {trait for member, trait in members.items() if member in text}


def comparisons_of(values: Values, top: Path = TOP) -> list[Comparison]:
    """The comparisons. Rows of tables are counted."""
    found = []
    for it in values["comparison"]:
        files = [top / name for name in it.get("rows", [])]
        number = it.get("compared", 0) + sum(len(file.read_text().splitlines()) for file in files)
        found.append(
            Comparison(
                it["with"], it["what"], number, it["commit"], it["date"], it["part"], it["repeat"]
            )
        )
    return found


def origin_of(flexpret: Flexpret, top: Path = TOP) -> Origin:
    """Where the answers come from."""
    path = Path(flexpret.path).resolve()
    checkout = Checkout(top, "flexpret_cli")
    if path == BESIDE.resolve():
        path = checkout.program
    what, is_proved, kit = _named(path)
    names = [*checkout.names(), "crates.txt"]
    sources = tuple((it, hashlib.sha256((top / it).read_bytes()).hexdigest()) for it in names)
    commit = said_by(["git", "rev-parse", "HEAD"], top)
    date = said_by(["git", "show", "-s", "--format=%cI", "HEAD"], top)
    return Origin(
        commit or commit_of(top),
        date,
        changes_of(top),
        kit or kit_line(),
        what,
        hashlib.sha256(path.read_bytes()).hexdigest(),
        is_proved,
        sources,
    )


def _named(path: Path) -> tuple[str, bool, str]:
    """What a program is, whether a record says that it is proved, and its recorded kit."""
    if path.name == MODEL:
        return NOT_PROVED, False, ""
    stamp = read_stamp(path.with_name(f"{path.name}.sources"))
    if stamp is None:
        return NO_STAMP, False, ""
    if stamp.program.sum != hashlib.sha256(path.read_bytes()).hexdigest():
        return "its record is of another program", False, ""
    text = (
        f"built at commit {stamp.commit} from {len(stamp.sources):,} sources whose checksums are"
        " recorded with it"
    )
    return text, True, stamp.kit


def gate_record(path: Path = RECORD) -> Values | None:
    """What the last whole ./test recorded; None where there is no record."""
    try:
        found = json.loads(path.read_text())
    except (OSError, ValueError):
        return None
    return found if isinstance(found, dict) else None


__all__ = [
    "Comparison",
    "Evidence",
    "Input",
    "NoClause",
    "Origin",
    "Promise",
    "comparisons_of",
    "gate_record",
    "origin_of",
    "promises_of",
    "read_data",
]
