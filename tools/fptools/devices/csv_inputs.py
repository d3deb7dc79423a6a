"""Inputs of a setup from a CSV file."""

import csv
from dataclasses import dataclass
from decimal import ROUND_CEILING, ROUND_HALF_EVEN, Decimal, InvalidOperation
from pathlib import Path
from typing import Iterator, Sequence

from fptools.limits import MOST_CYCLES

MOST_INPUTS = 4096
LEAST_WORD, END_WORD = -(1 << 31), 1 << 32
NANOSECONDS = Decimal(10) ** 9
MOST_SHOWN = 60  # characters of a row in a message
MOST_DIGITS = 30
"""The most digits before the point of a number that is read: more than any input has."""

UNCLOSED = "unexpected end of data"  # the message of the module csv about a quote without its end
FORMS = (["cycle", "word"], ["seconds", "value"])


class CsvError(ValueError):
    """A row can't be an input. The text says where and why."""


@dataclass(frozen=True)
class Input:
    """The port shows a word from a cycle on."""

    cycle: int
    word: int


def read_inputs(path: Path, scale: Decimal, period: int) -> list[Input]:
    """The inputs that a CSV file lists, for a period in nanoseconds. Its first row names the
    columns. A value is multiplied by `scale`, and is shown from the first cycle that begins at its
    seconds or later."""
    rows = _rows(path)
    first, header = next(rows, (1, []))
    if header not in FORMS:
        found_row = _shown(header) if header else "missing"
        raise CsvError(
            f"{path}:{first}: the first row is {found_row}: write cycle,word or seconds,value"
        )
    inputs: list[Input] = []
    for line, row in rows:
        try:
            given = _numbers(row)
            found = _counted(*given) if header == FORMS[0] else _timed(*given, scale, period)
            _compare(inputs, found)
        except CsvError as fault:
            raise CsvError(f"{path}:{line}: {fault}") from None
        inputs.append(Input(found.cycle, found.word % END_WORD))
    if not inputs:
        raise CsvError(f"{path}: no input: write a row below the first one, for each input")
    return inputs


def _rows(path: Path) -> Iterator[tuple[int, list[str]]]:
    """The rows of a file that aren't empty, without blanks around their fields, and their lines."""
    with path.open(newline="", encoding="utf-8-sig") as file:
        rows = csv.reader(file, skipinitialspace=True, strict=True)
        try:
            for row in rows:
                if row:
                    yield rows.line_num, [field.strip() for field in row]
        except csv.Error as fault:
            told = "a quote isn't closed" if str(fault) == UNCLOSED else str(fault)
            raise CsvError(f"{path}:{rows.line_num}: {told}") from None
        except UnicodeDecodeError as fault:
            raise CsvError(f"{path} isn't UTF-8: {fault.reason}") from None


def _numbers(row: Sequence[str]) -> tuple[Decimal, Decimal]:
    """The two numbers of a row."""
    if len(row) != 2:
        raise CsvError(f"{len(row)} fields, of two")
    try:
        first, second = map(Decimal, row)
    except InvalidOperation:
        raise CsvError(f"{_shown(row)} is not two numbers") from None
    if not (first.is_finite() and second.is_finite()):
        raise CsvError(f"{_shown(row)} is not two numbers")
    if max(first.adjusted(), second.adjusted()) >= MOST_DIGITS:
        raise CsvError(f"{_shown(row)} has a number that is too large")
    return first, second


def _shown(row: Sequence[str]) -> str:
    """A row, as far as a message has room for it."""
    text = ",".join(row)
    return repr(text if len(text) <= MOST_SHOWN else f"{text[:MOST_SHOWN]}..")


def _counted(cycle: Decimal, word: Decimal) -> Input:
    """The input of a row cycle,word."""
    if cycle != int(cycle) or word != int(word):
        raise CsvError(f"{cycle},{word} are no integers; a header seconds,value takes others")
    return Input(int(cycle), int(word))


def _timed(seconds: Decimal, value: Decimal, scale: Decimal, period: int) -> Input:
    """The input of a row seconds,value."""
    cycle = (seconds * NANOSECONDS / period).to_integral_value(ROUND_CEILING)
    return Input(int(cycle), int((value * scale).to_integral_value(ROUND_HALF_EVEN)))


def _compare(inputs: Sequence[Input], found: Input) -> None:
    """Refuses an input that a setup can't have behind others."""
    if not 0 <= found.cycle <= MOST_CYCLES:
        raise CsvError(f"cycle {found.cycle} is not 0 to {MOST_CYCLES}")
    if not LEAST_WORD <= found.word < END_WORD:
        raise CsvError(f"{found.word} has no word of 32 bits; --scale makes values smaller")
    if inputs and found.cycle <= inputs[-1].cycle:
        raise CsvError(f"cycle {found.cycle} isn't after cycle {inputs[-1].cycle}; cycles rise")


def changes(inputs: Sequence[Input]) -> list[Input]:
    """The inputs that show another word than the input before. The port shows 0 at the start."""
    words = [0, *(it.word for it in inputs)]
    return [it for it, before in zip(inputs, words) if it.word != before]


def thinned(inputs: Sequence[Input], every: int) -> list[Input]:
    """The first input of each `every` cycles."""
    first = {it.cycle // every: it for it in reversed(inputs)}
    return [first[block] for block in sorted(first)]


def enough(inputs: Sequence[Input]) -> int:
    """The least number of the form 1, 2 or 5 times a power of ten, by which thinned inputs are
    few enough."""
    return next(every for every in _steps() if len(thinned(inputs, every)) <= MOST_INPUTS)


def _steps() -> Iterator[int]:
    step = 1
    while True:
        yield from (step, 2 * step, 5 * step)
        step *= 10


def beyond(inputs: Sequence[Input]) -> str:
    """The advice for more inputs than a setup takes."""
    every = enough(inputs)
    return (
        f"{len(inputs)} inputs, of {MOST_INPUTS} at most: --changes leaves "
        f"{len(changes(inputs))}; --every {every} leaves {len(thinned(inputs, every))}; "
        "tools/fp_plant takes any number from a plant"
    )


def spelled(inputs: Sequence[Input]) -> str:
    """The value of `inputs` in TOML, eight a line."""
    pairs = [f"[{it.cycle}, {it.word}]" for it in inputs]
    lines = [", ".join(pairs[at : at + 8]) for at in range(0, len(pairs), 8)]
    return "[\n    " + ",\n    ".join(lines) + ",\n]" if len(lines) > 1 else f"[{''.join(lines)}]"
