"""Limits of the program and of the core, as docs/FORMATS.md and docs/COMMANDS.md have them."""

MOST_CYCLES = 4_000_000_000
"""The most cycles of a run."""

MOST_PICTURE = 2000
"""The most cycles of a picture."""

THREADS = 8
SMALL, LARGE = 16_384, 65_536
"""The bytes of a scratchpad, by `version` 1 and 2."""

DATA_START = 0x2000_0000
"""The first address of the data scratchpad. Code begins at 0."""

MOST_SEGMENTS = 16
"""Of an image."""
