"""Numbers with their units, as the page writes them."""

UNITS = ((1_000_000_000, "s"), (1_000_000, "ms"), (1_000, "µs"))
"""Units of time by their nanoseconds."""


def count_text(number: int) -> str:
    """A number with commas between thousands."""
    return f"{number:,}"


def cycles_text(cycles: int) -> str:
    return f"{cycles:,} cycle" + ("" if cycles == 1 else "s")


def time_text(ns: int) -> str:
    """A time in the largest unit that keeps it above 1, with at most three decimals."""
    for size, unit in UNITS:
        if abs(ns) >= size:
            return f"{ns / size:,.3f}".rstrip("0").rstrip(".") + f" {unit}"
    return f"{ns} ns"


def part_text(part: float) -> str:
    """A part of a whole, in percent."""
    return f"{100 * part:,.1f} %"
