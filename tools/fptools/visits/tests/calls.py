"""How tests call fp_visits."""
from __future__ import annotations

from fptools.testing.common import Tool

VISIT = ("--section", "visit=0x10:0x3c", "--no-bounds")


def shown(tool: Tool, *words: object, status: int = 0, given: str = "") -> list[str]:
    """The lines by single blanks."""
    ran = tool("fp_visits", *words, given=given)
    assert ran.returncode == status, ran.stdout + ran.stderr
    return [" ".join(line.split()) for line in ran.stdout.splitlines() if line]
