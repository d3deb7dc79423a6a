"""Compares the names of definitions and files in the documents for developers with the crates.

usage: python3 -m dev.pages.doc_names [PAGE..]

Without a page: DEFINITIONS, ARCHITECTURE, LIBRARY and TESTING. Each file FILE.antt must be in the specs/ of its crate,
and FILE.rt in its src/. The crate is before the file, as `CRATE/specs/FILE.antt` or `CRATE: FILE.antt`; else it is that
of the file before it in its line, or one in the heading of the section, or any. Where a table has the columns
"definition" and "file", a file of the row must declare the name at the beginning of each piece of code of the
definition. Status: 0 all are there; 1 one isn't; 2 a page can't be read.
"""

import argparse
import re
import sys
from collections.abc import Iterator
from pathlib import Path

from dev.program import TOP

PAGES = ("DEFINITIONS", "ARCHITECTURE", "LIBRARY", "TESTING")

FILE = re.compile(r"(?:\b([a-z]\w*)(?:/specs/|/src/|: ))?\b(\w+\.(?:antt|rt))\b")
CODE = re.compile(r"`(\w+)[^`]*`")


def crates_in(text: str) -> list[str]:
    """The crates that a text names; all crates if it names none."""
    named = [word for word in re.findall(r"\w+", text) if (TOP / "crates" / word).is_dir()]
    return named or sorted(folder.name for folder in (TOP / "crates").iterdir() if folder.is_dir())


def files_in(text: str, crates: list[str]) -> Iterator[tuple[str, list[Path]]]:
    """Each file that a text names, and the files of the tree with that name in one of its crates."""
    for crate, name in FILE.findall(text):
        if crate and (TOP / "crates" / crate).is_dir():
            crates = [crate]
        part = "specs" if name.endswith(".antt") else "src"
        yield name, [
            path for crate in crates for path in (TOP / "crates" / crate / part).rglob(name)
        ]


def is_declared(name: str, files: list[Path]) -> bool:
    """Whether a file declares a name: a definition, a record, a type, a constructor, or an item of a trait."""
    words = "abbrev|unfoldable|pub|record|data|ghost|fn|struct|enum|trait|const"
    declared = re.compile(rf"^\s*(?:(?:{words})\s+)+{name}\b|^\s*{name} :", re.MULTILINE)
    return any(declared.search(path.read_text()) for path in files)


def cells(line: str) -> list[str]:
    """The cells of a row of a table."""
    return [cell.strip() for cell in line.strip().strip("|").split("|")]


def faults(text: str) -> Iterator[tuple[int, str]]:
    """The line and the text of each name in a page that isn't in the tree."""
    crates, columns = crates_in(""), list[str]()
    for number, line in enumerate(text.splitlines(), 1):
        if line.startswith("#"):
            crates = crates_in(line)
        if not line.startswith("|"):
            columns = []
        found = list(files_in(line, crates))
        yield from ((number, f"{name}: no such file") for name, paths in found if not paths)
        if line.startswith("|") and not columns:
            columns = [cell.split()[0] for cell in cells(line) if cell]
        elif {"definition", "file"} <= set(columns) and line.strip("|- "):
            row = cells(line)
            files = [
                path for _, paths in files_in(row[columns.index("file")], crates) for path in paths
            ]
            for name in CODE.findall(row[columns.index("definition")]):
                if not is_declared(name, files):
                    yield number, f"{name}: not declared in {row[columns.index('file')] or 'a file of the row'}"


def main() -> int:
    """Compares the pages with the tree."""
    parser = argparse.ArgumentParser(
        description="Compares the names of definitions and files in the documents for developers with the crates."
    )
    parser.add_argument(
        "pages", nargs="*", type=Path, metavar="PAGE", help=f"default: {', '.join(PAGES)}"
    )
    options = parser.parse_args()
    count = 0
    for page in options.pages or [TOP / "docs/dev" / f"{name}.md" for name in PAGES]:
        try:
            text = page.read_text()
        except OSError as error:
            print(f"doc_names.py: {error}", file=sys.stderr)
            return 2
        for number, fault in faults(text):
            print(f"{page.name}:{number}: {fault}")
            count += 1
    print(f"doc_names.py: {count} names aren't in the tree")
    return int(count > 0)


if __name__ == "__main__":
    sys.exit(main())
