"""Finds definitions that a caller of a crate can't name.

A public contract may cite definitions of crates below its own. `specs/Lib.antt` has to name the files of these again, by a
line `pub use Rattle.CRATE.specs.FILE`, so that a caller needs only this crate in crates.txt. Each line of output names a
contract, a definition that it cites, and the line that is missing.

The definitions in `specs/` of the crates in `DOORS` may also only use names that the crate re-exports. A program with only such a
crate in crates.txt can then use its contracts. The exit status is 1 if a line is missing, and 2 if a crate's files can't be
read."""

import argparse
import re
import sys
from collections.abc import Iterator
from dataclasses import dataclass, field
from pathlib import Path

from dev.crates.source import CLAUSES, Source

from dev.program import TOP
from fptools.launch.up_to_date import Checkout

DOORS = ("flexpret_top",)
"""The crates that a program may have as its only library in crates.txt."""

USE = re.compile(r"^use Rattle\.(?P<path>[\w.]+)\.\{(?P<names>[^}]*)\}", re.M)
"""The import of another file's definitions in a file of definitions, on one line or on several."""


@dataclass(frozen=True)
class Import:
    """A definition that a file of code names for its contracts, and the tokens among which the name counts."""

    name: str
    path: tuple[str, ...]
    """The names of its module behind `Rattle`: the crate, `specs`, and the parts of the file's name."""
    first: int
    last: int


@dataclass(frozen=True)
class Missing:
    """A definition that a public contract cites, and that the crate doesn't re-export."""

    crate: str
    place: Path
    line: int
    item: str
    name: str
    path: tuple[str, ...]

    def __str__(self) -> str:
        module = ".".join(("Rattle", *self.path))
        return (
            f"{self.place}:{self.line}: {self.item} cites `{self.name}`:"
            f" add `pub use {module}` to crates/{self.crate}/specs/Lib.antt"
        )


@dataclass
class Exports:
    """The names that a library's root makes public: whole modules, and single items of the others."""

    modules: set[str] = field(default_factory=set)
    items: set[str] = field(default_factory=set)


def words_between(source: Source, first: int, last: int) -> list[str]:
    """The names among some tokens."""
    return [token.text for token in source.tokens[first:last] if token.kind == "name"]


def end_of(source: Source, k: int) -> int:
    """The semicolon that ends the item which begins at a token."""
    while k < len(source.tokens) and not source.is_at(k, ";"):
        k = source.after(k)
    return k


def exports_of(source: Source) -> Exports:
    """The public names of a library's root file."""
    found = Exports()
    for k in range(len(source.tokens)):
        if not source.is_at(k, "pub"):
            continue
        if source.is_at(k + 1, "mod"):
            found.modules.add(source.tokens[k + 2].text)
        elif source.is_at(k + 1, "use"):
            found.items |= set(words_between(source, k + 2, end_of(source, k)))
    return found


def block_around(source: Source, k: int) -> tuple[int, int]:
    """The tokens of the innermost braces around a token, or all."""
    around = [
        (opened, closed)
        for opened, closed in source.closing.items()
        if opened < k < closed and source.is_at(opened, "{")
    ]
    return max(around, default=(0, len(source.tokens)))


def imports_of(source: Source) -> Iterator[Import]:
    """The definitions that the `ghost use` lines of a file import."""
    for k in range(len(source.tokens)):
        if not (
            source.is_at(k, "ghost")
            and source.is_at(k + 1, "use")
            and source.is_at(k + 2, "Rattle")
        ):
            continue
        opened = next((at for at in range(k, end_of(source, k)) if source.is_at(at, "{")), None)
        if opened is None:
            continue
        path = tuple(words_between(source, k + 3, opened))
        for first, last in source.parts(opened):
            yield Import(source.tokens[last - 1].text, path, *block_around(source, k))


def clauses_of(source: Source, k: int) -> Iterator[tuple[int, int]]:
    """The blocks of the contract of the function that begins at a token `fn`, as ranges of tokens."""
    in_clause = False
    while k < len(source.tokens) and not source.is_at(k, ";"):
        if source.is_at(k, *CLAUSES):
            in_clause = True
        elif source.is_at(k, "{"):
            if not in_clause:
                return
            yield k + 1, source.closing[k]
            in_clause = False
        k = source.after(k)


def is_public(source: Source, k: int) -> bool:
    """Whether an unrestricted `pub` is before the item that begins at a token."""
    while k > 0 and source.is_at(k - 1, "const", "unsafe"):
        k -= 1
    return k > 0 and source.is_at(k - 1, "pub")


def owner_block(source: Source, k: int) -> tuple[str, int] | None:
    """The word that begins the block of a type or a trait around a token, `impl` or `trait`, with its place."""
    opened, _ = block_around(source, k)
    at = opened - 1
    while at >= 0 and not source.is_at(at, ";", "}"):
        if source.is_at(at, "impl", "trait"):
            return source.tokens[at].text, at
        at -= 1
    return None


def is_reached(source: Source, k: int, module: str, exports: Exports) -> bool:
    """Whether a caller can call the function that begins at a token `fn` of a module."""
    whole = module in exports.modules or module == "lib"
    owner = owner_block(source, k) if block_around(source, k)[0] > 0 else None
    if owner is None:
        return is_public(source, k) and (whole or source.tokens[k + 1].text in exports.items)
    kind, begin = owner
    opened, _ = block_around(source, k)
    header = words_between(source, begin + 1, opened)
    known = whole or bool(set(header) & exports.items)
    return known and (kind == "trait" or "for" in header or is_public(source, k))


def cited(source: Source, k: int) -> Iterator[tuple[int, str]]:
    """The names in the contract of the function that begins at a token `fn`, each with its token."""
    for first, last in clauses_of(source, k):
        for at in range(first, last):
            if source.tokens[at].kind == "name" and not source.is_at(at - 1, "."):
                yield at, source.tokens[at].text


def reexported(folder: Path) -> list[tuple[str, ...]]:
    """The modules of other crates that a crate's specs/Lib.antt names, without the leading `Rattle`."""
    lines = (
        (folder / "specs" / "Lib.antt").read_text().splitlines()
        if (folder / "specs" / "Lib.antt").exists()
        else []
    )
    uses = (
        line.removeprefix("pub use ").split(" as ")[0].strip()
        for line in lines
        if line.startswith("pub use ")
    )
    return [tuple(use.split(".")[1:]) for use in uses]


def missing_in(top: Path, crate: str, crates: set[str]) -> Iterator[Missing]:
    """The definitions that the public contracts of one crate cite and the crate doesn't re-export, each once for a contract."""
    folder = top / "crates" / crate
    exports = exports_of(Source((folder / "src" / "lib.rt").read_text()))
    handed_on = reexported(folder)
    for file in sorted((folder / "src").glob("*.rt")):
        source = Source(file.read_text())
        imports = list(imports_of(source))
        seen: set[tuple[int, str]] = set()
        for k in range(len(source.tokens) - 1):
            if not source.is_at(k, "fn") or not is_reached(source, k, file.stem, exports):
                continue
            for at, name in cited(source, k):
                for path in (
                    it.path for it in imports if it.name == name and it.first <= at < it.last
                ):
                    if (
                        path[0] == crate
                        or path[0] not in crates
                        or (k, name) in seen
                        or any(path[: len(use)] == use for use in handed_on)
                    ):
                        continue
                    seen.add((k, name))
                    yield Missing(
                        crate,
                        file.relative_to(top),
                        source.line_of(source.tokens[at].start),
                        f"the contract of `{source.tokens[k + 1].text}`",
                        name,
                        path,
                    )


def missing_below(top: Path, crate: str, crates: set[str]) -> Iterator[Missing]:
    """The files of definitions that one crate's definitions import and the crate doesn't re-export, each once."""
    folder = top / "crates" / crate
    handed_on = reexported(folder)
    seen: set[tuple[str, ...]] = set()
    for file in sorted((folder / "specs").glob("*.antt")):
        text = file.read_text()
        for found in USE.finditer(text):
            path = tuple(found["path"].split("."))
            if (
                path[0] == crate
                or path[0] not in crates
                or path in seen
                or any(path[: len(use)] == use for use in handed_on)
            ):
                continue
            seen.add(path)
            names = ", ".join(name.strip() for name in found["names"].split(",") if name.strip())
            number = text.count("\n", 0, found.start()) + 1
            yield Missing(crate, file.relative_to(top), number, "a definition", names, path)


def main(arguments: list[str]) -> int:
    parser = argparse.ArgumentParser(
        description=__doc__, formatter_class=argparse.RawDescriptionHelpFormatter
    )
    parser.add_argument("crates", nargs="*", metavar="CRATE", help="look at these crates only")
    parser.add_argument("--top", type=Path, default=TOP, help="the folder of the repository")
    chosen = parser.parse_args(arguments)
    try:
        crates = list(Checkout(chosen.top, "").libraries())
        libraries = [
            name
            for name in chosen.crates or crates
            if (chosen.top / "crates" / name / "src" / "lib.rt").exists()
        ]
        missing = [it for name in libraries for it in missing_in(chosen.top, name, set(crates))]
        missing += [
            it
            for name in libraries
            if name in DOORS
            for it in missing_below(chosen.top, name, set(crates))
        ]
    except OSError as no:
        print(f"exports.py: {no}", file=sys.stderr)
        return 2
    for it in missing:
        print(it)
    print(f"{len(libraries)} libraries, {len(missing)} definitions that a caller can't name")
    return 1 if missing else 0


if __name__ == "__main__":
    sys.exit(main(sys.argv[1:]))
