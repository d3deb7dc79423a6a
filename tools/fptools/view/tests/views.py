"""What the tests of fp_view share."""
from __future__ import annotations

from fptools.testing.common import TOP, Tool

BUILT = TOP / "crates/flexpret_view/out/flexpret_view"
SPACE = "{http://www.w3.org/2000/svg}"


def said(viewing: Tool, *words: str) -> str:
    """What a call writes that goes well."""
    ran = viewing("fp_view", *words)
    assert (ran.returncode, ran.stderr) == (0, "")
    return ran.stdout


def refused(viewing: Tool, *words: str) -> tuple[int, str]:
    """The status and the one line of a call that doesn't."""
    ran = viewing("fp_view", *words)
    assert ran.stdout == "" and ran.stderr.count("\n") == 1
    return ran.returncode, ran.stderr.strip()
