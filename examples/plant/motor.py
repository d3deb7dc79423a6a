#!/usr/bin/env python3
"""The motor of crates/example_plants as a plant of tools/fp_plant, whose load comes in step 1000.

Numbers have 16 bits after the binary point."""

import sys


def limited(value: int) -> int:
    """A value in the range of 32 bits with a sign."""
    return max(-(1 << 31), min(value, (1 << 31) - 1))


def lagging(value: int, target: int, bits: int) -> int:
    """A value that approaches a target, with a time constant of 2 to the power of `bits` steps."""
    return limited(value + (limited(target - value) >> bits))


def main() -> None:
    current = speed = 0
    for step, line in enumerate(sys.stdin):
        word = int(line.split()[1])
        if step > 0:  # the first exchange asks for the word at the start
            voltage = word - (1 << 32 if word >> 31 else 0)
            current = lagging(current, limited(voltage - speed), 4)
            speed = lagging(speed, limited(current - (0 if step < 1000 else 0x4_0000)), 6)
        print(speed, flush=True)


if __name__ == "__main__":
    main()
