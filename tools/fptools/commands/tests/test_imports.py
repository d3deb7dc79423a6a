"""What fp_budget loads: a package that takes long to load only where the call needs it."""
from __future__ import annotations

import os
import re
import subprocess
import sys
from pathlib import Path

import pytest

from fptools.testing.common import TOOLS, TOP

HEAVY = {"scipy", "networkx", "jinja2", "elftools", "difflib", "xml"}
LATE = {
    "fptools.budget.runs",
    "fptools.period.periods",
    "fptools.visits.meters",
    "fptools.budget.reports",
}
IMPORTED = re.compile(r"^import time: .*\| +(\S+)$", re.MULTILINE)
PID = "examples/c/pid"


def loaded(flexpret: str, *words: str) -> set[str]:
    """The modules that a call loads, of those above."""
    call = [sys.executable, "-X", "importtime", str(TOOLS / "fp_budget"), *words]
    environment = {**os.environ, "FLEXPRET": flexpret}
    ran = subprocess.run(
        call, capture_output=True, text=True, check=False, cwd=TOP, env=environment
    )
    assert ran.stdout, ran.stderr
    return set(IMPORTED.findall(ran.stderr)) & (HEAVY | LATE)


def test_help(flexpret: str) -> None:
    assert loaded(flexpret, "--help") == set()


def test_a_section_of_a_setup(flexpret: str, tmp_path: Path) -> None:
    budgets = tmp_path / "budgets.toml"
    budgets.write_text('[[budget]]\nname = "it"\nthread = 0\nfrom = 0\nto = 8\ncycles = 1000\n')
    assert loaded(flexpret, "examples/slots.toml", str(budgets)) == set()


@pytest.mark.parametrize("more", [(), ("--json",), ("--path",)])
def test_a_section_of_an_executable(flexpret: str, more: tuple[str, ...]) -> None:
    found = loaded(flexpret, f"{PID}.toml", "examples/c/budgets.toml", "--elf", f"{PID}.elf", *more)
    assert found - {"fptools.budget.reports", "xml"} == {"elftools"}


def test_all_threads(flexpret: str) -> None:
    found = loaded(flexpret, f"{PID}.elf", "--setup", f"{PID}.toml", "--all")
    assert found == {"elftools", "fptools.period.periods"}
