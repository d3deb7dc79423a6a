"""Lists the lines of the crates that are wider than 100 columns.

usage: python3 -m dev.crates.lines [--check] [--top FOLDER] [CRATE ..]

A row of output is `FILE:LINE: COLUMNS columns`, of the definitions (specs), the code (src) and the
proofs. A column is a character. A line passes if one quoted text in it is wider than QUOTED: a text
of antt ends on its line. Status: 0 no line is too wide, or --check isn't given; 1 with --check, one
is; 2 a crate has no files, or one can't be read.
"""

import argparse
import re
import sys
from collections.abc import Iterator
from dataclasses import dataclass
from pathlib import Path

from dev.program import TOP

COLUMNS = 100
"""The widest line."""

QUOTED = 80
"""The widest quoted text that a line is broken around."""

PARTS = ("specs", "src", "proofs")
"""The folders of a crate whose files are read."""

TEXT = re.compile(r'"(?:[^"\\]|\\.)*"')


@dataclass(frozen=True)
class Wide:
    """A line that is too wide."""

    file: Path
    number: int
    columns: int

    def __str__(self) -> str:
        return f"{self.file}:{self.number}: {self.columns} columns"


def is_wide(line: str) -> bool:
    """Whether a line is wider than the limit, and has no quoted text that fills it."""
    return len(line) > COLUMNS and all(len(text) <= QUOTED for text in TEXT.findall(line))


def files_of(crate: Path) -> list[Path]:
    """The files of a crate's definitions, code and proofs, in their order."""
    folders = (crate / part for part in PARTS)
    files = (file for folder in folders for file in sorted(folder.rglob("*")))
    return [file for file in files if file.suffix in (".antt", ".rt")]


def wide_lines(file: Path, top: Path) -> Iterator[Wide]:
    """The lines of a file that are too wide."""
    for number, line in enumerate(file.read_text().splitlines(), 1):
        if is_wide(line):
            yield Wide(file.relative_to(top), number, len(line))


def main(arguments: list[str]) -> int:
    """Lists the lines, with their number in each of the crates' parts."""
    parser = argparse.ArgumentParser(description="Lists the crates' lines of over 100 columns.")
    parser.add_argument("crates", nargs="*", metavar="CRATE", help="look at these crates only")
    parser.add_argument("--check", action="store_true", help="status 1 where a line is too wide")
    parser.add_argument("--top", type=Path, default=TOP, metavar="FOLDER", help="the repository")
    options = parser.parse_args(arguments)
    folder: Path = options.top / "crates"
    names = options.crates or sorted(path.name for path in folder.glob("*") if path.is_dir())
    found: list[Wide] = []
    count = 0
    try:
        for name in names:
            files = files_of(folder / name)
            if not files:
                raise FileNotFoundError(2, "no .rt or .antt file", str(folder / name))
            count += len(files)
            found += [wide for file in files for wide in wide_lines(file, options.top)]
    except OSError as error:
        print(f"lines.py: {error.filename}: {error.strerror}", file=sys.stderr)
        return 2
    for wide in found:
        print(wide)
    parts = ", ".join(
        f"{sum(it.file.parts[2] == part for it in found)} in {part}" for part in PARTS
    )
    print(f"{count} files, {len(found)} lines of over {COLUMNS} columns: {parts}")
    return 1 if found and options.check else 0


if __name__ == "__main__":
    sys.exit(main(sys.argv[1:]))
