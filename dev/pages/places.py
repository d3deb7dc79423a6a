"""Lists the places of the repository that name an instruction, as a guide to add another one like it.

usage: python3 -m dev.pages.places [--lines] NAME..

NAME is an existing instruction, as `gth` or `ee`: choose those that the new one resembles. A place is a file that
has a name as a whole word, as `gth`, `Gth` or `GTH`, in definitions, sources, proofs, edits, the model, the tools, the
core in SystemVerilog and the documents. Data of tests and generated files aren't searched. A file that treats an
instruction by a rule for all others doesn't name it: look at `fallbacks`, which are listed last, with the pages that
count the timing instructions. Status: 0 places were found; 1 none was; 2 usage error.
"""

import argparse
import re
import sys
from collections.abc import Iterator
from dataclasses import dataclass
from pathlib import Path

from dev.program import TOP

KINDS = {
    "definitions": ["crates/*/specs/**/*.antt"],
    "code": ["crates/*/src/**/*.rt"],
    "proofs": ["crates/*/proofs/**/*.antt"],
    "must-fail edits": ["crates/*/must-fail/*.edit", "dev/mutants/edits/**/*.edit"],
    "model": ["model/**/*.py"],
    "tools": ["tools/**/*.py", "tools/fp_*"],
    "C": ["examples/c/*.h"],
    "core in SystemVerilog": ["rtl/*.sv"],
    "documents": ["README.md", "docs/**/*.md"],
}
"""The kinds of places, each with patterns of its files."""

COUNTED = re.compile(r"\b(?:five|six|seven|eight) timing\s+instructions\b")
"""A page that counts the timing instructions."""

FALLBACK = re.compile(r"^\s*(?:lag i |edges_of i |\| ?Ins::|_ =>|Ins::\w+ \{ \.\. \}\s*\|)")
"""A line that treats several instructions, or all others, alike."""


@dataclass(frozen=True)
class Place:
    """A file with the lines that name one of the instructions."""

    kind: str
    file: Path
    lines: dict[int, str]


def files_of(kind: str) -> Iterator[Path]:
    """The files of a kind, in their order, without generated ones."""
    for pattern in KINDS[kind]:
        for file in sorted(TOP.glob(pattern)):
            if file.is_file() and "out" not in file.relative_to(TOP).parts:
                yield file


def places(names: list[str]) -> Iterator[Place]:
    """The places that name one of the instructions."""
    words = {
        spelling for name in names for spelling in (name.lower(), name.capitalize(), name.upper())
    }
    pattern = re.compile(rf"\b(?:{'|'.join(sorted(words))})\b|fp_\w*_({'|'.join(sorted(words))})\b")
    for kind in KINDS:
        for file in files_of(kind):
            text = file.read_text(errors="replace")
            lines = {
                number: line.strip()
                for number, line in enumerate(text.splitlines(), 1)
                if pattern.search(line)
            }
            if lines:
                yield Place(kind, file.relative_to(TOP), lines)


def fallbacks() -> Iterator[str]:
    """The files of definitions and code in which instructions have a rule for all others."""
    for kind in ("definitions", "code"):
        for file in files_of(kind):
            text = file.read_text(errors="replace")
            if "Ins" in text and any(FALLBACK.match(line) for line in text.splitlines()):
                yield str(file.relative_to(TOP))


def counts() -> Iterator[str]:
    """The pages that count the timing instructions."""
    for file in files_of("documents"):
        if COUNTED.search(file.read_text()):
            yield str(file.relative_to(TOP))


def main() -> int:
    """Lists the places, by kind."""
    parser = argparse.ArgumentParser(
        description="Lists the places that name an instruction, as a guide to add another one."
    )
    parser.add_argument("--lines", action="store_true", help="also print each line")
    parser.add_argument("names", nargs="+", metavar="NAME", help="an existing instruction, as gth")
    options = parser.parse_args()
    found = list(places(options.names))
    if not found:
        print(f"places.py: no place names {' or '.join(options.names)}", file=sys.stderr)
        return 1
    kind = ""
    for place in found:
        if place.kind != kind:
            kind = place.kind
            print(f"{kind}:")
        print(f"  {place.file}: {len(place.lines)}")
        for number, line in place.lines.items() if options.lines else ():
            print(f"    {number}: {line}")
    print("rules for several or all other instructions:")
    for file in fallbacks():
        print(f"  {file}")
    print("the number of timing instructions:")
    for file in counts():
        print(f"  {file}")
    return 0


if __name__ == "__main__":
    sys.exit(main())
