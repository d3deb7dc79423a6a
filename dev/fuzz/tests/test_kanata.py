"""dev/fuzz/kanata.py, over the stored log and changes of it."""
from __future__ import annotations

import subprocess
import sys

import pytest
from fptools.testing.common import TOP

STORED = (TOP / "examples/slots.konata").read_text()


def said_of(log: str) -> str:
    ran = subprocess.run(
        [sys.executable, "-m", "dev.fuzz.kanata", "-"],
        cwd=TOP,
        input=log,
        capture_output=True,
        text=True,
        check=False,
        timeout=30,
    )
    assert (ran.returncode, ran.stderr) == (1 if ran.stdout else 0, "")
    return ran.stdout


def test_the_stored_log_has_no_fault() -> None:
    assert said_of(STORED) == ""


@pytest.mark.parametrize(
    ("old", "new", "said"),
    [
        ("0004", "0005", "-:1: the head isn't 'Kanata\\t0004'"),
        ("C=\t3\n", "", "-:2: no C= said which cycle it is"),
        ("C=\t3\n", "C=\t3\nC=\t3\n", "-:3: a second C="),
        ("C=\t3\n", "C=\tx\n", "-:2: 'x' is no number"),
        ("C=\t3\n", "C=\t-3\n", "-:2: '-3' is no number"),
        ("C\t1\n", "C\t0\n", "-:7: C goes on by a cycle at least, behind C="),
        ("C\t1\n", "C 1\n", "-:7: there is no command 'C 1'"),
        ("C\t1\n", "C\t1\t1\n", "-:7: C has 1 fields, and not 2"),
        ("I\t0\t0\t0\n", "I\t1\t0\t0\n", "-:3: the next id is 0"),
        ("L\t0\t0\tT0 flushed\n", "L\t0\t3\tT0 flushed\n", "-:4: L has no type 3"),
        ("L\t0\t0\tT0 flushed\n", "L\t1\t0\tT0 flushed\n", "-:4: no I has the id 1"),
        ("L\t0\t0\tT0 flushed\n", "L\t0\t1\tT0 flushed\n", "-:5: a second label of type 1"),
        ("L\t0\t0\tT0 flushed\n", "L\t0\t0\t\n", "-:4: a field is empty"),
        ("L\t0\t0\tT0 flushed\n", "", "-:13: it ends with no label or no detail"),
        ("S\t0\t0\tF\n", "S\t0\t0\tD\n", "-:6: D comes behind []"),
        ("S\t0\t0\tD\n", "S\t0\t0\tF\n", "-:12: a second F"),
        ("S\t0\t0\tD\n", "", "-:13: it ends behind ['F']"),
        ("S\t0\t0\tD\n", "E\t0\t0\tF\nS\t0\t0\tD\n", ""),
        ("S\t0\t0\tD\n", "E\t0\t0\tD\n", "-:12: lane 0 isn't in D"),
        ("S\t0\t0\tF\n", "S\t0\t0\tF\nE\t0\t0\tF\n", "-:7: stage F ends in the cycle in which it begins"),
        ("S\t0\t0\tD\n", "W\t1\t0\t0\nS\t0\t0\tD\n", ""),
        ("S\t0\t0\tD\n", "W\t1\t2\t0\nS\t0\t0\tD\n", "-:12: no I has the id 2"),
        ("R\t0\t0\t1\n", "R\t0\t0\t0\n", "-:14: it ends behind ['F', 'D']"),
        ("R\t0\t0\t1\n", "R\t0\t0\t1\nR\t0\t0\t1\n", "-:15: 0 has ended"),
    ],
)  # fmt: skip
def test_changes_of_the_stored_log(old: str, new: str, said: str) -> None:
    assert old in STORED
    ran = said_of(STORED.replace(old, new, 1))
    assert ran == (f"{said}\n" if said else "")


def test_logs_that_are_cut() -> None:
    assert said_of("") == "-:1: the head is missing\n"
    assert said_of(STORED[:-1]) == f"-:{STORED.count(chr(10))}: the line has no end\n"
