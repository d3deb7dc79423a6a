"""The mutants, as must-fail edits: each can be applied, and those of the table are in the gate."""
from __future__ import annotations

import re
import subprocess
import sys
from pathlib import Path

import pytest
from fptools.testing.common import TOP


from dev.mutants.edits import fault_of

GATE = sorted(TOP.glob("crates/*/must-fail/*.edit"))
MOVED = sorted(TOP.glob("dev/mutants/edits/*/*.edit"))


def table() -> list[tuple[str, str]]:
    """The crate and the name of each mutant that docs/dev/TESTING.md lists."""
    text = (TOP / "docs/dev/TESTING.md").read_text()
    rows = re.findall(
        r"^\| [^|]+ \| ([^|]+) \|$", text[text.index("| mutant | files |") :], re.MULTILINE
    )
    found = []
    for row in rows:
        for group in row.split(";"):
            crate, colon, bodies = group.partition(":")
            if colon and re.fullmatch(r"\s*\w+", crate):
                found += [(crate.strip(), body.strip()) for body in bodies.split(",")]
    return found


@pytest.mark.parametrize("edit", GATE, ids=[f"{it.parents[1].name}/{it.stem}" for it in GATE])
def test_an_edit_of_the_gate_can_be_applied(edit: Path) -> None:
    assert fault_of(edit, edit.parents[1]) is None


@pytest.mark.parametrize("edit", MOVED, ids=[f"{it.parent.name}/{it.stem}" for it in MOVED])
def test_an_edit_outside_the_gate_can_be_applied(edit: Path) -> None:
    assert fault_of(edit, TOP / "crates" / edit.parent.name) is None


@pytest.mark.parametrize(("crate", "body"), table())
def test_the_gate_has_each_edit_of_the_table(crate: str, body: str) -> None:
    assert list((TOP / "crates" / crate / "must-fail").glob(f"*.{body}.edit"))


def test_no_edit_is_in_both_places() -> None:
    gate = {(it.parents[1].name, it.name) for it in GATE}
    assert not gate & {(it.parent.name, it.name) for it in MOVED}


def test_an_unknown_crate_is_named() -> None:
    ran = subprocess.run(
        [sys.executable, "-m", "dev.mutants.edits", "nosuch"],
        cwd=TOP,
        capture_output=True,
        text=True,
        check=False,
    )
    assert ran.returncode == 2
    assert "nosuch: no folder of dev/mutants/edits has this name" in ran.stderr
