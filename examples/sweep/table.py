#!/usr/bin/env python3
"""table.py FOLDER: joins the setups of a sweep with their results to FOLDER/table.tsv, and says how many
are missing. The bound is that of the loop's period, from the moment of a wait to the issue of the next one; slack is
the budget less the bound.

Setups and bounds are read by the package fptools of tools/."""

import argparse
import site
import sys
from dataclasses import dataclass
from pathlib import Path

site.addsitedir(str(Path(__file__).resolve().parents[2] / "tools"))

from fptools.program.answers import Bound, read_answer
from fptools.files.setup import read_setup
from make import LOOP_NS

HEADER = "name slots period budget bound fold slack".split()


@dataclass(frozen=True)
class Row:
    """A machine of the sweep with its result."""

    name: str
    slots: str  # T for a slot of T0, S for one of the soft threads
    period: int  # nanoseconds of a cycle
    bound: int  # cycles
    fold: str

    @property
    def budget(self) -> int:
        """The cycles that the loop has."""
        return LOOP_NS // self.period

    @property
    def slack(self) -> int:
        return self.budget - self.bound

    def text(self) -> str:
        numbers = self.period, self.budget, self.bound
        return "\t".join(map(str, (self.name, self.slots, *numbers, self.fold, self.slack)))


def row_of(folder: Path, name: str) -> Row | None:
    """The row of a job; None where it has no result."""
    result = folder / "results" / f"{name}.txt"
    if not result.is_file():
        return None
    answer, _, fold = result.read_text(encoding="ascii").strip().partition("\n")
    found = read_answer(answer)
    if not isinstance(found, Bound) or not fold:
        raise ValueError(f"{result} has no bound and hash: remove it, and sweep again")
    setup = read_setup(folder / "setups" / f"{name}.toml")
    slots = "".join(slot[0] for slot in setup.slots)
    return Row(name, slots, setup.period, found.cycles, fold)


def main() -> None:
    parser = argparse.ArgumentParser(
        description=__doc__, formatter_class=argparse.RawDescriptionHelpFormatter
    )
    parser.add_argument("folder", type=Path, nargs="?", default=Path())
    folder: Path = parser.parse_args().folder
    try:
        jobs = (folder / "jobs.tsv").read_text(encoding="ascii").splitlines()
        rows = [row_of(folder, name) for name in sorted(job.split("\t")[0] for job in jobs)]
        lines = ["\t".join(HEADER), *(row.text() for row in rows if row)]
        (folder / "table.tsv").write_text("\n".join(lines) + "\n", encoding="ascii")
    except (OSError, ValueError) as fault:
        sys.exit(f"table.py: {fault}")
    print(f"{rows.count(None)} of {len(rows)} jobs have no result")


if __name__ == "__main__":
    main()
