"""Why a run has no event."""

import tomllib
from pathlib import Path

from fptools.untyped import Values


FRAME = 8
"""The slots of a frame."""


def why(setup: Path, thread: int, cycles: int) -> str:
    """Why a thread issues nothing in the first cycles, by its setup. Raises OSError or ValueError."""
    values = tomllib.loads(setup.read_text(encoding="utf-8-sig"))
    tables: list[Values] = (
        [it for it in values["thread"] if it["id"] == thread] if "thread" in values else []
    )
    said = f"T{thread} issues nothing in the first {cycles} cycle{'s' * (cycles != 1)}"
    if not tables:
        return f"{said}: no [[thread]] of {setup} has id = {thread}, so it sleeps"
    mode = str(tables[0]["mode"])
    if mode.endswith("asleep"):
        return f"{said}: it starts asleep"
    if mode == "hard" and f"T{thread}" not in values["slots"]:
        return f'{said}: it is hard, and no slot is "T{thread}"'
    if mode == "soft" and "S" not in values["slots"]:
        return (
            f'{said}: it is soft, and no slot is "S": it only has turns of hard threads that sleep'
        )
    if cycles < FRAME:
        return f"{said}: its first turn comes later"
    return f"{said}: other threads have all turns"
