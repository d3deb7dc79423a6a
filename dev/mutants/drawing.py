"""Random single changes of the bodies in crates, each line of a body as likely as the next."""
import difflib
import random
from collections.abc import Iterator
from dataclasses import dataclass, field
from pathlib import Path

from dev.mutants.changes import WEIGHTS, Change, changes
from dev.program import TOP
from dev.crates.source import Source


@dataclass(frozen=True)
class Drawn:
    """A change of a file, its number, and the line at which it begins."""

    number: int
    crate: str
    file: str
    line: int
    change: Change
    text: str

    def key(self) -> tuple[str, tuple[tuple[int, int, str], ...]]:
        return self.file, self.change.edits

    def diff(self) -> str:
        """The change as a diff of its file."""
        rows = difflib.unified_diff(
            self.text.splitlines(True),
            self.change.applied(self.text).splitlines(True),
            self.file,
            self.file,
            n=2,
        )
        return "".join(rows)


@dataclass
class Urn:
    """The lines of bodies of some crates, with the changes that begin at each."""

    lines: list[tuple[str, str, int]] = field(default_factory=list)
    changes: dict[tuple[str, str, int], dict[str, list[Change]]] = field(default_factory=dict)
    texts: dict[str, str] = field(default_factory=dict)

    def add(self, crate: str, file: Path) -> None:
        name, source = str(file.relative_to(TOP)), Source(file.read_text())
        self.texts[name] = source.text
        for change in changes(source):
            line = (crate, name, source.line_of(change.edits[0][0]))
            if line not in self.changes:
                self.lines.append(line)
            self.changes.setdefault(line, {}).setdefault(change.kind, []).append(change)

    def draw(self, chance: random.Random, number: int) -> Drawn:
        """A line, then a kind of change, then a change."""
        line = chance.choice(self.lines)
        kinds = self.changes[line]
        weights = [WEIGHTS.get(kind, 1.0) for kind in kinds]
        kind = chance.choices(list(kinds), weights)[0]
        return Drawn(number, *line, chance.choice(kinds[kind]), self.texts[line[1]])

    def all_drawn(self, seed: int, count: int) -> Iterator[Drawn]:
        """The first changes of a seed, each once."""
        seen: set[tuple[str, tuple[tuple[int, int, str], ...]]] = set()
        chance = random.Random(seed)
        total = sum(len(some) for kinds in self.changes.values() for some in kinds.values())
        while len(seen) < min(count, total):
            drawn = self.draw(chance, len(seen))
            if drawn.key() not in seen:
                seen.add(drawn.key())
                yield drawn


def library_crates() -> list[str]:
    return sorted(
        folder.name for folder in (TOP / "crates").iterdir() if (folder / "src/lib.rt").is_file()
    )


def urn_of(crates: list[str]) -> Urn:
    urn = Urn()
    for crate in crates:
        for file in sorted((TOP / "crates" / crate / "src").glob("**/*.rt")):
            urn.add(crate, file)
    return urn
