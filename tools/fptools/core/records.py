"""Recorded signals of a core, in CSV or VCD, as the events of its threads.

    from fptools.core.records import read_record

    for event in read_record(Path("board.csv"), {}):
        print(event.thread, event.line())

docs/FLEXPRET.md has the signals and when they are sampled."""

import csv
from dataclasses import dataclass
from pathlib import Path
from typing import Callable, Iterator, Mapping, Sequence

NUMBERS = ("cycle", "valid", "thread", "rd", "size", "csr_write", "trap", "cause", "sleep")
"""The signals that a CSV file has in decimal."""

WORDS = ("pc", "word", "value", "address", "data", "csr", "target")
"""The signals that a CSV file has in hexadecimal."""

SIGNALS = (*NUMBERS, *WORDS)
RETIRES = 4
"""Cycles from an issue to stage W, where the signals are sampled."""

SIZES = (0, 1, 2, 4)
MOST_SHOWN = 40  # characters of a wrong text in a message
VCD_SUFFIX = ".vcd"


class RecordError(ValueError):
    """A record can't be read. The text has the place and the cause."""


Read = Callable[[str, int], int]
"""Reads a signal, which is at most a number, of one row."""


@dataclass(frozen=True)
class Recorded:
    """An event: its thread, the cycle of its issue, its pc and word, and its effect."""

    thread: int
    cycle: int
    pc: int
    word: int
    effect: str

    def line(self) -> str:
        """The event as a line of a trace."""
        return f"{self.cycle:10d} {self.pc:08x} {self.word:08x} {self.effect}\n"


def read_record(path: Path, named: Mapping[str, str]) -> Iterator[Recorded]:
    """The events of a record, in the order of their cycles. `named` has the file's own name of each
    signal that it names differently. A bad file is a `RecordError` or an `OSError`."""
    for name in named:
        if name not in SIGNALS:
            raise RecordError(f"--signal {name}: the signals are {', '.join(SIGNALS)}")
    names = {name: named.get(name, name) for name in SIGNALS}
    rows = _vcd_rows(path, names) if path.suffix == VCD_SUFFIX else _csv_rows(path, names)
    before = -1
    for place, read in rows:
        try:
            cycle = read("cycle", (1 << 64) - 1)
            if cycle <= before:
                raise RecordError(f"cycle {cycle} after cycle {before}: cycles must rise")
            before = cycle
            if read("valid", 1):
                yield _event(cycle, read)
        except RecordError as fault:
            raise RecordError(f"{path}:{place}: {fault}") from None


def _event(cycle: int, read: Read) -> Recorded:
    """The event that retires in a cycle."""
    if cycle < RETIRES:
        text = f"an instruction retires in cycle {cycle}, but none can before cycle {RETIRES}"
        raise RecordError(f"{text}: cycle 0 is the first one after reset")
    word = 0xFFFF_FFFF
    return Recorded(
        read("thread", 7), cycle - RETIRES, read("pc", word), read("word", word), _effect(read)
    )


def _effect(read: Read) -> str:
    """The effect of an event as traces have it. Effects that no instruction has together are all
    written, so that the line differs."""
    word, effects = 0xFFFF_FFFF, []
    if rd := read("rd", 31):
        effects.append(f"x{rd:02d}={read('value', word):08x}")
    if size := read("size", 4):
        if size not in SIZES:
            raise RecordError(f"size {size}: a store has 1, 2 or 4 bytes")
        effects.append(f"[{read('address', word):08x}]/{size}={read('data', word):08x}")
    if read("csr_write", 1):
        effects.append(f"csr {read('csr', 0xFFF):03x}={read('data', word):08x}")
    if read("trap", 1):
        effects.append(f"trap {read('cause', 31)} -> {read('target', word):08x}")
    if read("sleep", 1):
        effects.append("wait")
    return " ".join(effects) or "-"


def _shown(text: str) -> str:
    return repr(text if len(text) <= MOST_SHOWN else text[:MOST_SHOWN] + "..")


def _value(name: str, text: str, base: int, most: int) -> int:
    """A signal's value by its text."""
    try:
        value = int(text, base) if text.isascii() and "_" not in text else -1
    except ValueError:
        value = -1
    if not 0 <= value <= most:
        kind = {2: "binary", 10: "decimal", 16: "hexadecimal"}[base]
        raise RecordError(f"{name} is {_shown(text)}: write a {kind} number, at most {most:#x}")
    return value


# ------------------------------------------------------------------------------------------- CSV


def _csv_rows(path: Path, names: Mapping[str, str]) -> Iterator[tuple[int, Read]]:
    """The rows of a CSV file, whose first one names the columns, with their lines."""
    with path.open(newline="", encoding="utf-8-sig") as file:
        rows = csv.reader(file, skipinitialspace=True, strict=True)
        try:
            header = [it.strip() for it in next(rows, [])]
            at = _columns(path, header, names)
            for row in rows:
                if len(row) == len(header):
                    yield rows.line_num, _csv_reader(row, at)
                elif row:
                    counts = f"{len(row)} fields, of {len(header)}"
                    raise RecordError(f"{path}:{rows.line_num}: {counts}")
        except csv.Error as fault:
            raise RecordError(f"{path}:{rows.line_num}: {fault}") from None
        except UnicodeDecodeError as fault:
            raise RecordError(f"{path}: not UTF-8: {fault.reason}") from None


def _columns(path: Path, header: Sequence[str], names: Mapping[str, str]) -> dict[str, int]:
    """Where the header has each signal."""
    for name in names.values():
        if header.count(name) != 1:
            what = "more than one column" if name in header else "no column"
            raise RecordError(f"{path}:1: {what} {name}: the first row names each signal once")
    for column in header:
        if column not in names.values():
            cure = "leave the column out, or name a signal by --signal NAME=COLUMN"
            raise RecordError(f"{path}:1: unknown signal {_shown(column)}: {cure}")
    return {name: header.index(column) for name, column in names.items()}


def _csv_reader(row: Sequence[str], at: Mapping[str, int]) -> Read:
    def read(name: str, most: int) -> int:
        return _value(name, row[at[name]].strip(), 10 if name in NUMBERS else 16, most)

    return read


# ------------------------------------------------------------------------------------------- VCD


def _vcd_rows(path: Path, names: Mapping[str, str]) -> Iterator[tuple[int, Read]]:
    """The cycles of a value change dump: the values before `cycle` changes, with the line of that
    change. Cycles before `cycle` is known are left out."""
    with path.open(encoding="utf-8", errors="replace") as file:
        lines = enumerate(file, 1)
        letters = _vcd_letters(path, lines, names)
        cycle, values = letters["cycle"], dict.fromkeys(letters.values(), "x")
        number = 0
        for number, line in lines:
            for letter, value in _changes(line):
                if letter not in values:
                    continue
                if letter == cycle and value != values[cycle] and values[cycle].isdigit():
                    yield number, _vcd_reader(values, letters)
                values[letter] = value
        if values[cycle].isdigit():
            yield number, _vcd_reader(values, letters)


def _vcd_letters(
    path: Path, lines: Iterator[tuple[int, str]], names: Mapping[str, str]
) -> dict[str, str]:
    """The letters of each signal, by the declarations of a dump. A name may have scopes before it,
    as `top.core.pc`. Without them it must be in one scope only."""
    scopes: list[str] = []
    found: dict[str, list[tuple[str, str]]] = {name: [] for name in names}
    number = 0
    for number, line in lines:
        fields = line.split()
        if fields[:1] == ["$scope"] and len(fields) > 2:
            scopes.append(fields[2])
        elif fields[:1] == ["$upscope"]:
            del scopes[-1:]
        elif fields[:1] == ["$var"] and len(fields) > 4:
            full = ".".join([*scopes, fields[4].partition("[")[0]])
            for name, theirs in names.items():
                if full == theirs or full.endswith(f".{theirs}"):
                    found[name].append((full, fields[3]))
        elif fields[:1] == ["$enddefinitions"]:
            break
    return {name: _vcd_letter(f"{path}:{number}", names[name], found[name]) for name in names}


def _vcd_letter(place: str, name: str, found: Sequence[tuple[str, str]]) -> str:
    """The letters of the only signal of a name."""
    if not found:
        raise RecordError(f"{place}: no signal {name}: the dump declares all signals")
    if len({letter for _, letter in found}) > 1:
        cure = f"--signal {name}={found[0][0]} names one"
        raise RecordError(f"{place}: {len(found)} signals {name}: {cure}")
    return found[0][1]


def _changes(line: str) -> Iterator[tuple[str, str]]:
    """The changes in a line: letters and values. A real number changes no signal."""
    if line[:1] in "01xXzZ" and line[1:].strip():
        yield line[1:].strip(), line[0]
    elif line[:1] in ("b", "B"):
        value, _, letter = line[1:].partition(" ")
        yield letter.strip(), value


def _vcd_reader(values: Mapping[str, str], letters: Mapping[str, str]) -> Read:
    now = dict(values)

    def read(name: str, most: int) -> int:
        return _value(name, now[letters[name]], 2, most)

    return read
