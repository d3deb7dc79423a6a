"""The built program: its place, and the lines of its statuses on standard error."""
import sys
from pathlib import Path

from fptools.program.status import Status

TOP = Path(__file__).resolve().parent.parent
BUILT = TOP / "crates/flexpret_cli/out/flexpret_cli"
BUILT_BY_RATTLE = BUILT.with_name("flexpret_cli.by-rattle")
"""The second build of it that rt ci leaves, by the other compiler."""


COMPLAINTS: dict[int, bytes] = {
    Status.USAGE: b"flexpret: usage\n",
    Status.READ: b"flexpret: read failed\n",
    Status.WRITE: b"flexpret: write failed\n",
    Status.NO_MEMORY: b"flexpret: out of memory\n",
}


def complaint(status: int) -> bytes:
    """The line that standard error gets with a status, or nothing."""
    return COMPLAINTS.get(status, b"")


def built_program(given: str | None = None) -> Path:
    """The program to try; ends the script where it isn't built."""
    program = Path(given).resolve() if given else BUILT
    if not program.is_file():
        sys.exit(f"{program} is not built: call ./flexpret once, or rt ci, and try again")
    return program
