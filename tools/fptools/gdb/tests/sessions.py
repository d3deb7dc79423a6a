"""What the tests of sessions share."""
from __future__ import annotations

from fptools.gdb.tests.gdb_client import Client

PID = "examples/c/pid.toml"
STEP_BEGIN, STEP_END = 0xB4, 0x1A4


def cycle_of(client: Client) -> int:
    return int(client.monitor("cycle").split()[1].rstrip(","))
