"""The model as a program: `python3 -m model run examples/drive.toml --thread 0 --cycles 77`."""

import sys

from model.commands import OutSink, RealFiles, Status, flexpret
from model.ports import HeldPort
from model.setups import THREADS

COMPLAINTS = {
    Status.USAGE: "usage", Status.READ: "read failed", Status.WRITE: "write failed", Status.NO_MEMORY: "out of memory",
}  # fmt: skip


def main() -> int:
    status = flexpret(sys.argv[1:], RealFiles(), OutSink(), [HeldPort() for _ in range(THREADS)])
    if status in COMPLAINTS:
        print(f"flexpret: {COMPLAINTS[status]}", file=sys.stderr)
    return status


if __name__ == "__main__":
    sys.exit(main())
