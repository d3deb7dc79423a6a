"""fp_lint refuses what the program refuses: each row that the gate compares with the proved reader of setups."""
from __future__ import annotations

from pathlib import Path

import pytest
from fptools.testing.common import TOP
from fptools.files.lint import refusals
from fptools.files.setup import read_setup, spelled
from fptools.files.toml import TomlError

# What the schema can't say, since it compares values; it is looked at in a setup that the schema takes.
BEYOND_SCHEMA = ("OutOfRange", "ConfinedPermit", "DoubleThread")


def rows() -> dict[str, tuple[str, str]]:
    """By its name, a row's setup and what is read of it: the first line, as `refused 7 BadSlot slots[3]`."""
    found = {}
    for row in (
        (TOP / "crates/test_units/data/setups.txt").read_text(encoding="utf-8").split("=== ")[1:]
    ):
        name, *lines = row.splitlines()
        end = next((at for at, line in enumerate(lines) if line.startswith("--- ")), len(lines))
        if ": " not in name:  # which are of other things than setups
            found[name] = "".join(line + "\n" for line in lines[:end]), lines[end].removeprefix(
                "--- "
            )
    return found


ROWS = rows()


@pytest.mark.parametrize("name", ROWS)
def test_a_row_of_setups(name: str, tmp_path: Path) -> None:
    text, read = ROWS[name]
    setup = tmp_path / "setup.toml"
    setup.write_text(text, encoding="utf-8")
    try:
        paths = [spelled(path) for _, path, _ in refusals(read_setup(setup))]
    except TomlError:
        paths = ["-"]
    if not read.startswith("refused"):
        assert paths == []
        return
    _, _, fault, path = read.split()
    is_named = any(it.startswith(path) for it in paths)
    assert is_named or paths and (path == "-" or fault in BEYOND_SCHEMA)


def test_there_are_rows_of_both_kinds() -> None:
    refused = sum(read.startswith("refused") for _, read in ROWS.values())
    assert refused > 250 and len(ROWS) - refused > 20
