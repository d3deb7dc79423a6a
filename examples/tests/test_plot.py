"""examples/device/plot.py: the stored picture, and lines of which none can be drawn."""
from __future__ import annotations

import subprocess

import pytest
from fptools.testing.common import TOP

PLOT = TOP / "examples/device/plot.py"


def test_the_stored_lines_give_the_stored_picture() -> None:
    lines = (TOP / "examples/device/loop.txt").read_bytes()
    ran = subprocess.run([PLOT], input=lines, capture_output=True, check=True)
    assert ran.stdout == (TOP / "examples/device/loop.svg").read_bytes()


@pytest.mark.parametrize("lines", ["", "# ns set-point drive value\n", "0 1 2 3\n"])
def test_no_lines_are_told(lines: str) -> None:
    ran = subprocess.run([PLOT], input=lines, capture_output=True, text=True, check=False)
    assert (ran.returncode, ran.stdout) == (1, "")
    assert ran.stderr == "plot.py: no line of `device_cli loop` behind 0 nanoseconds came in\n"
