"""Draws a new table from a seed, in the form of the stored one: `python3 -m model.tables.draw TABLE --seed N > FILE`"""

import argparse
import sys
from collections.abc import Callable, Iterator
from itertools import chain

from model.tables import section_rows, tool_rows, world_cases
from model.tables.forms import table


def head_of(name: str) -> list[str]:
    """The comment at the head of a stored table."""
    lines = table(name).read_text().splitlines()
    return lines[: next(k for k, line in enumerate(lines) if not line.startswith("#"))]


TABLES: dict[str, Callable[[int], Iterator[str]]] = {
    "worlds.txt": world_cases.worlds,
    "settings.txt": world_cases.some_settings,
    "bounds.txt": section_rows.bounds,
    "calls.txt": section_rows.calls,
    "decode.txt": tool_rows.decoded,
    "results.txt": tool_rows.ran,
    "gnu.txt": tool_rows.lines,
}
"""The function that draws the rows of each table, after its head."""


def main() -> int:
    parser = argparse.ArgumentParser(description=__doc__)
    parser.add_argument("table", choices=sorted(TABLES))
    parser.add_argument("--seed", type=int, required=True)
    options = parser.parse_args()
    for line in chain(head_of(options.table), TABLES[options.table](options.seed)):
        print(line)
    return 0


if __name__ == "__main__":
    sys.exit(main())
