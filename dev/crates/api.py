"""Lists the public interface of the crates: each public signature, field, variant and number.

The list is docs/dev/API.txt, which is made from the sources. The gate compares it, so a public name only changes on purpose.

    python3 -m dev.crates.api            writes the list
    python3 -m dev.crates.api --check    compares it with the sources; status 1 where they differ
"""
import argparse
import difflib
import re
import sys
from collections.abc import Iterator
from dataclasses import dataclass, field
from functools import cached_property
from pathlib import Path

from dev.crates.source import Source

from dev.program import TOP
from fptools.launch.up_to_date import Checkout

LIST = TOP / "docs/dev/API.txt"
REFUSALS = TOP / "crates/trace_print/specs/Refusals.antt"
STATUSES = TOP / "crates/commands/specs/Status.antt"
HEAD = """\
Each public signature, field, variant and number of the crates, lowest crate first. It is made by dev/crates/api.py from the
sources; the gate compares. `..` stands for private fields. What a call promises is its contract, in the sources.
"""
ENDS = ("requires", "ensures", "where", "{", ";")
"""The tokens that end the header of a function or a type."""
UNIT = 4
"""The spaces of one level of the list."""

Lines = list[str]


@dataclass
class Module:
    """The items of one file: those of each name, and the blocks `impl`, with the type that each is of."""

    items: dict[str, Lines] = field(default_factory=dict)
    impls: dict[str, list[Lines]] = field(default_factory=dict)
    exports: list[list[str]] = field(default_factory=list)
    """The paths of `pub use`, whose last part may be `self`."""
    modules: list[str] = field(default_factory=list)
    """The modules that are public."""


def spaced(text: str) -> str:
    """A text on one line, with single blanks."""
    text = re.sub(r"\s+", " ", re.sub(r"//[^\n]*", "", text)).strip()
    return re.sub(r",? ([)\]>])", r"\1", re.sub(r"([(\[<]) ", r"\1", text.replace(", }", " }")))


def indented(lines: Lines) -> Lines:
    """Lines one level deeper."""
    return [" " * UNIT + line for line in lines]


class Reader:
    """Reads the public items of one file."""

    def __init__(self, text: str) -> None:
        self.source = Source(text)
        self.found = Module()

    def read(self) -> Module:
        """The items of the file."""
        k, derived = 0, ""
        while k < len(self.source.tokens):
            if self.source.is_at(k, "#"):
                at = k + 1 if self.source.is_at(k + 1, "[") else k + 2
                derived = self.derives(at) or derived
                k = self.source.after(at)
                continue
            k = self.item(k, derived)
            derived = ""
        return self.found

    def derives(self, opened: int) -> str:
        """The text `derive(..)` of an attribute, if it is one."""
        text = self.source.between(opened + 1, self.source.closing[opened])
        return spaced(text) if text.startswith("derive") else ""

    def is_public(self, k: int) -> bool:
        """Whether an unrestricted `pub` is at a token."""
        return self.source.is_at(k, "pub") and not self.source.is_at(k + 1, "(")

    def item(self, k: int, derived: str) -> int:
        """Reads the item at a token. The answer is the token behind it."""
        at = k + 1 if self.is_public(k) else k
        word = self.source.tokens[at].text
        end = self.end_of(at)
        if word == "impl":
            self.impl(at, end)
        elif at > k and word in ("use", "mod"):
            self.path(at, end)
        elif at > k and word in (
            "fn",
            "const",
            "static",
            "type",
            "struct",
            "enum",
            "trait",
            "unsafe",
        ):
            name = self.source.tokens[at + 1].text
            self.found.items[name] = self.lines(at, end, derived)
        return end

    def end_of(self, k: int) -> int:
        """The token behind the item at a token."""
        in_clause = False
        while k < len(self.source.tokens):
            if self.source.is_at(k, ";"):
                return k + 1
            if self.source.is_at(k, "requires", "ensures", "="):
                in_clause = True
            elif self.source.is_at(k, "{") and not in_clause:
                return self.source.after(k)
            elif self.source.is_at(k, "{"):
                in_clause = False
            k = self.source.after(k)
        return k

    def header_end(self, k: int, end: int) -> int:
        """The token that ends the header of the item at a token."""
        while k < end and not self.source.is_at(k, *ENDS):
            k = self.source.after(k)
        return k

    def path(self, k: int, end: int) -> None:
        """Reads `use PATH;` or `mod NAME;`."""
        text = spaced(self.source.between(k + 1, end - 1))
        if self.source.is_at(k, "mod"):
            self.found.modules.append(text)
            return
        root, _, names = text.partition("::{")
        for name in re.split(r",\s*", names.rstrip("}, ")) if names else [""]:
            self.found.exports.append(
                [part.strip() for part in (f"{root}::{name}" if name else root).split("::")]
            )

    def lines(self, k: int, end: int, derived: str) -> Lines:
        """The lines of the public item at a token."""
        word = self.source.tokens[k].text
        header_end = self.header_end(k, end)
        if word in ("const", "static", "type"):
            return [self.with_numbers(spaced(self.source.between(k, end - 1)))]
        header = spaced(self.source.between(k, header_end))
        if word == "fn":
            return [header]
        if derived:
            header += f": {derived}"
        opened = next((at for at in range(header_end, end) if self.source.is_at(at, "{")), None)
        if opened is None:
            return [header]
        parts = {"struct": self.fields, "enum": self.variants, "trait": self.methods}[word](opened)
        return [header, *indented(list(parts))]

    def with_numbers(self, text: str) -> str:
        """The text of a constant, with the numbers of the file's other constants in place of their names."""

        def number(name: re.Match[str]) -> str:
            return self.numbers.get(name[0], name[0])

        front, equals, value = text.partition(" = ")
        return front + equals + re.sub(r"\b[A-Z][A-Z_]+\b", number, value)

    @cached_property
    def numbers(self) -> dict[str, str]:
        """The constants of the file that are one number."""
        return dict(
            re.findall(r"\bconst ([A-Z][A-Z_]*): \w+ = ([0-9][0-9a-fA-Fx_]*);", self.source.text)
        )

    def fields(self, opened: int) -> Iterator[str]:
        """The public fields of a struct; `..` where there are others."""
        hidden = False
        for first, last in self.source.parts(opened):
            first = self.behind_attributes(first)
            if self.is_public(first):
                yield spaced(self.source.between(first + 1, last))
            elif not self.source.is_at(first, "ghost"):
                hidden = True
        if hidden:
            yield ".."

    def variants(self, opened: int) -> Iterator[str]:
        """The variants of an enum with their fields and numbers."""
        for first, last in self.source.parts(opened):
            first = self.behind_attributes(first)
            if not self.source.is_at(first, "ghost"):
                yield spaced(self.source.between(first, last))

    def methods(self, opened: int) -> Iterator[str]:
        """The methods and ghost members of a trait."""
        k, last = opened + 1, self.source.closing[opened]
        while k < last:
            k = self.behind_attributes(k)
            end = self.end_of(k)
            if self.source.is_at(k, "ghost") and not self.source.is_at(k + 1, "use"):
                yield spaced(self.source.between(k, end))
            elif self.source.is_at(k, "fn", "type", "const"):
                yield spaced(self.source.between(k, self.header_end(k, end)))
            k = end

    def behind_attributes(self, k: int) -> int:
        """The token behind the attributes at a token."""
        while self.source.is_at(k, "#"):
            k = self.source.after(k + 1)
        return k

    def impl(self, k: int, end: int) -> None:
        """Reads a block `impl`: a trait's, or the public functions of a type."""
        opened = next(at for at in range(k, end) if self.source.is_at(at, "{"))
        header = spaced(self.source.between(k, opened))
        name = self.source.owner_at(k, opened)
        is_of_trait = any(self.source.is_at(at, "for") for at in range(k, opened))
        owner = self.owner(k, opened)
        if is_of_trait:
            if " Model for " not in header:
                self.found.impls.setdefault(owner, []).append([header])
            return
        lines = list(self.public_functions(opened))
        if lines:
            self.found.impls.setdefault(name, []).append([header, *indented(lines)])

    def owner(self, k: int, opened: int) -> str:
        """The name of the type that a block `impl` is of."""
        at = next((at + 1 for at in range(k, opened) if self.source.is_at(at, "for")), k + 1)
        if self.source.is_at(at, "<"):
            at = self.source.behind_angles(at)
        while self.source.is_at(at + 1, "::"):
            at += 2
        return self.source.tokens[at].text

    def public_functions(self, opened: int) -> Iterator[str]:
        """The public functions and constants in a block `impl`."""
        k, last = opened + 1, self.source.closing[opened]
        while k < last:
            k = self.behind_attributes(k)
            at = k + 1 if self.is_public(k) else k
            end = self.end_of(at)
            if at > k:
                is_value = self.source.is_at(at, "const") and not self.source.is_at(at + 1, "fn")
                yield spaced(
                    self.source.between(at, end - 1 if is_value else self.header_end(at, end))
                )
            k = end


@dataclass
class Crate:
    """A crate's files, each read when it is first needed."""

    folder: Path
    read: dict[str, Module] = field(default_factory=dict)

    def module(self, path: str) -> Module:
        """The module of a path as `lib` or `front::text`."""
        if path not in self.read:
            file = self.folder.joinpath("src", *path.split("::")).with_suffix(".rt")
            self.read[path] = Reader(file.read_text(encoding="utf-8")).read()
        return self.read[path]

    def has_module(self, path: str) -> bool:
        """Whether there is a file of a path."""
        return self.folder.joinpath("src", *path.split("::")).with_suffix(".rt").is_file()

    def public_lines(self, path: str = "lib") -> Lines:
        """The public items of a module."""
        module = self.module(path)
        lines: Lines = []
        for name in module.items:
            lines += self.item_lines(path, name)
        for name in module.modules:
            inner = name if path == "lib" else f"{path}::{name}"
            lines += [f"mod {name}", *indented(self.public_lines(inner))]
        for *front, name in module.exports:
            lines += self.export_lines(front, name)
        return lines

    def export_lines(self, front: list[str], name: str) -> Lines:
        """The item that a `pub use` re-exports: one of this crate, or another crate's by its path."""
        inner = "::".join(part for part in front if part not in ("crate", "self"))
        if inner and self.has_module(inner) and name in self.module(inner).items:
            return self.item_lines(inner, name)
        return [f'use {"::".join([*front, name])}']

    def item_lines(self, path: str, name: str) -> Lines:
        """An item of a module, and its implementations in any file of the crate."""
        lines = list(self.module(path).items[name])
        for file in sorted((self.folder / "src").rglob("*.rt")):
            module = self.module(
                "::".join(file.relative_to(self.folder / "src").with_suffix("").parts)
            )
            for block in module.impls.get(name, []):
                lines += indented(block)
        return lines


def libraries() -> Iterator[str]:
    """The crates that have a library, lowest first."""
    for name in Checkout(TOP, "").libraries():
        if (TOP / "crates" / name / "src/lib.rt").is_file():
            yield name


def code_lines() -> Iterator[str]:
    """The numbers and names of refusal lines, and the statuses."""
    tables = re.findall(
        r"^unfoldable pub (\w+)_names : List Named\n((?:.+\n)+)",
        REFUSALS.read_text(encoding="utf-8"),
        re.M,
    )
    for table, body in tables:
        yield f"refusals: {table}"
        yield from indented(
            [
                f"{number} {name}"
                for number, name in re.findall(r'named (\d+) \(codes "(\w+)"\)', body)
            ]
        )
    yield "statuses"
    yield from indented(
        [
            f"{number} {name}"
            for name, number in re.findall(
                r"^number_of (\w+) = (\d+)$", STATUSES.read_text(encoding="utf-8"), re.M
            )
        ]
    )


def whole() -> str:
    """The text of the list."""
    lines = [HEAD]
    for name in libraries():
        lines += [f"crate {name}", *indented(Crate(TOP / "crates" / name).public_lines()), ""]
    return "\n".join([*lines, *code_lines()]) + "\n"


def check(text: str) -> int:
    """Compares the stored list with the sources. The status: 0 where they are the same, else 1."""
    stored = LIST.read_text(encoding="utf-8") if LIST.is_file() else ""
    if stored == text:
        return 0
    for line in difflib.unified_diff(
        stored.splitlines(), text.splitlines(), "docs/dev/API.txt", "the sources", lineterm="", n=2
    ):
        print(line)
    print(
        "api.py: public names differ from docs/dev/API.txt. If this is meant, run dev/crates/api.py and commit the list.",
        file=sys.stderr,
    )
    return 1


def main() -> int:
    """Writes or compares the list."""
    parser = argparse.ArgumentParser(
        description="Lists the public names of the crates in docs/dev/API.txt."
    )
    parser.add_argument(
        "--check", action="store_true", help="compare the list with the sources, and write nothing"
    )
    text = whole()
    if parser.parse_args().check:
        return check(text)
    LIST.parent.mkdir(parents=True, exist_ok=True)
    LIST.write_text(text, encoding="utf-8")
    return 0


if __name__ == "__main__":
    sys.exit(main())
