#!/usr/bin/env python3
"""Reads the trace of a controller from standard input, and writes what it loaded and stored at its port: a line
`NANOSECONDS SET_POINT VOLTAGE SPEED` for each store, in numbers with four decimals. The set point is that of
t0_motor.c."""

import site
import sys
from collections.abc import Iterable, Iterator
from pathlib import Path

site.addsitedir(str(Path(__file__).resolve().parents[2] / "tools"))

from fptools.files.trace import Event, read_trace
from fptools.files.trace_blocks import BrokenTrace

PORT = 0x4000_0000
"""The address of a thread's port."""

PERIOD = 10
"""Nanoseconds of a cycle, as in motor.toml."""

SET_POINT = 16.0


def fixed(word: int) -> float:
    """A signed number with 16 bits after the binary point."""
    return (word - (1 << 32 if word >> 31 else 0)) / 65536


def is_port_load(word: int, registers: list[int]) -> bool:
    """Whether an instruction loads the word of the port."""
    offset = (word >> 20) - (1 << 12 if word >> 31 else 0)
    return word & 0x707F == 0x2003 and (registers[word >> 15 & 31] + offset) % (1 << 32) == PORT


def samples(events: Iterable[Event]) -> Iterator[tuple[int, float, float]]:
    """The cycle of each store at the port, its value, and the value that was loaded last before it."""
    registers, speed = [0] * 32, 0.0
    for event in events:
        if event.register is not None and event.value is not None:
            if is_port_load(event.bits, registers):
                speed = fixed(event.value)
            registers[event.register] = event.value
        elif event.stored is not None and event.stored.address == PORT:
            yield event.cycle, fixed(event.stored.value), speed


def main() -> None:
    print("# ns set-point drive value")
    try:
        for cycle, voltage, speed in samples(read_trace(sys.stdin.buffer, "standard input")):
            print(f"{cycle * PERIOD} {SET_POINT:.4f} {voltage:.4f} {speed:.4f}")
    except BrokenTrace as fault:
        sys.exit(f"loop_trace.py: {fault}")


if __name__ == "__main__":
    main()
