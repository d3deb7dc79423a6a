"""examples/loop/loop_trace.py: what a controller loaded and stored at its port, by its trace."""
from __future__ import annotations

import subprocess
import sys

from fptools.testing.common import TOP

SCRIPT = TOP / "examples/loop/loop_trace.py"
HEADER = "# ns set-point drive value\n"
# The port is at 0x40000000: a load and a store of it, a store elsewhere, and loads of another address.
LINES = """\
         0 00000000 400000b7 x01=40000000
         4 00000004 0000a103 x02=00088000
         8 00000008 0020a023 [40000000]/4=001e0000
        12 0000000c 00202023 [20000000]/4=00000001
        16 00000010 00002103 x02=00000007
        20 00000014 0020a023 [40000000]/4=fffe8000
"""


def said(lines: str) -> tuple[int, str, str]:
    ran = subprocess.run(
        [sys.executable, SCRIPT], input=lines, capture_output=True, text=True, check=False
    )
    return ran.returncode, ran.stdout, ran.stderr


def test_loads_and_stores_at_the_port() -> None:
    found = "80 16.0000 30.0000 8.5000\n200 16.0000 -1.5000 8.5000\n"
    assert said(LINES) == (0, HEADER + found, "")


def test_a_broken_line_is_named() -> None:
    fault = "loop_trace.py: standard input: line 4 is broken: it is no event of a trace: 'x'\n"
    assert said("".join(LINES.splitlines(True)[:3]) + "x\n") == (
        1,
        HEADER + "80 16.0000 30.0000 8.5000\n",
        fault,
    )
