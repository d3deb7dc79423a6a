"""The sections of a debugger's tables, as gcc and clang write them with -S: directives read as a
sequence of bytes."""

import re
from collections.abc import Iterator, Sequence
from dataclasses import dataclass

from fptools.layout.assembly import AtLine, Kind, statements

SIZES = {
    **dict.fromkeys((".byte", ".1byte"), 1),
    **dict.fromkeys((".2byte", ".half", ".short", ".hword", ".value"), 2),
    **dict.fromkeys((".4byte", ".word", ".long", ".int"), 4),
    **dict.fromkeys((".8byte", ".quad", ".dword"), 8),
}
"""The bytes of an operand of each directive for numbers."""

LEB = (".uleb128", ".sleb128")
"""The directives for numbers of seven bits a byte."""

STRINGS = (".string", ".asciz", ".ascii")
SWITCHES = (".section", ".text", ".data", ".bss", ".previous", ".pushsection", ".popsection")
"""The directives that begin another section."""

SECTION = re.compile(r'\s*\.section\s+"?([\w.$-]+)"?')
NUMBER = re.compile(r"-?(0[xX][0-9a-fA-F]+|\d+)")
CHARACTER = re.compile(r"\\x[0-9a-fA-F]+|\\[0-7]{1,3}|\\?.", re.DOTALL)
CONTINUED = 0x80
"""The bit of a byte after which a number goes on, and the least number of two bytes."""


class Unread(AtLine):
    """A table isn't understood."""


@dataclass(frozen=True)
class Cell:
    """An operand of a directive, or a label, with the index of its line."""

    line: int
    name: str  # of the directive; empty for a label
    text: str  # of the operand or label

    @property
    def is_label(self) -> bool:
        return not self.name

    @property
    def number(self) -> int | None:
        """Its value; None where it isn't a plain number."""
        return int(self.text, 0) if NUMBER.fullmatch(self.text) else None

    @property
    def size(self) -> int:
        """Its bytes. Raises Unread where they aren't known."""
        if self.name in SIZES:
            return SIZES[self.name]
        number = self.number
        if self.name in LEB and number is not None:
            return _leb_size(number, self.name == ".sleb128")
        raise Unread(
            self.line + 1, f"`{self.name} {self.text}` in a debugger's table has no known size"
        )


def _code(character: str) -> int:
    """The byte of a character of a string, which may be escaped."""
    digits = character[1:]
    if digits[:1] in ("x", "X") and digits[1:]:
        return int(digits[1:], 16) & 0xFF
    if re.fullmatch("[0-7]+", digits):
        return int(digits, 8) & 0xFF
    return ord(
        {"n": "\n", "t": "\t", "b": "\b", "f": "\f", "r": "\r"}.get(digits, digits) or character
    )


def _leb_size(number: int, is_signed: bool) -> int:
    """The bytes of a number in LEB128."""
    size = 1
    while not (-0x40 <= number < 0x40 if is_signed else number < CONTINUED):
        number >>= 7
        size += 1
    return size


def sections(lines: Sequence[str]) -> dict[str, list[int]]:
    """The indices of the lines of each section whose name begins with `.debug_`."""
    found: dict[str, list[int]] = {}
    name = ""
    for index, line in enumerate(lines):
        words = line.split(None, 1)
        if words and words[0] in SWITCHES:
            begins = SECTION.match(line)
            name = begins[1] if begins else ""
        elif name.startswith(".debug_"):
            found.setdefault(name, []).append(index)
    return found


def cells(lines: Sequence[str], indices: Sequence[int]) -> list[Cell]:
    """The labels and operands of some lines."""
    return [it for index in indices for it in _of_line(lines[index], index)]


def _of_line(line: str, index: int) -> Iterator[Cell]:
    for it in statements([line], index + 1):
        if it.kind is Kind.LABEL:
            yield Cell(index, "", it.name)
        elif it.name in SIZES or it.name in LEB:
            yield from (Cell(index, it.name, operand.strip()) for operand in it.rest.split(","))
        elif it.name in STRINGS:
            codes = [_code(found) for found in CHARACTER.findall(it.rest[1:-1])] + [0] * (
                it.name != ".ascii"
            )
            yield from (Cell(index, ".byte", str(code)) for code in codes)
        else:
            raise Unread(index + 1, f"`{it}` in a debugger's table isn't known")


class Stream:
    """Reads cells as bytes."""

    def __init__(self, given: Sequence[Cell]) -> None:
        self.cells = given
        self.at = 0

    def labels(self) -> list[Cell]:
        """The labels at this place."""
        first = self.at
        while self.at < len(self.cells) and self.cells[self.at].is_label:
            self.at += 1
        return list(self.cells[first : self.at])

    @property
    def is_at_end(self) -> bool:
        """Whether only labels follow."""
        at = self.at
        while at < len(self.cells) and self.cells[at].is_label:
            at += 1
        return at == len(self.cells)

    def next(self) -> Cell:
        """The next operand."""
        self.labels()
        if self.at >= len(self.cells):
            line = self.cells[-1].line + 1 if self.cells else 0
            raise Unread(line, "a debugger's table ends too early")
        self.at += 1
        return self.cells[self.at - 1]

    def fixed(self, size: int) -> Cell:
        """An operand of a size."""
        cell = self.next()
        if SIZES.get(cell.name) != size:
            raise Unread(
                cell.line + 1, f"a debugger's table has `{cell.name}` in place of {size} bytes"
            )
        return cell

    def leb(self) -> int | None:
        """A number in LEB128, as one operand or as bytes; None where it isn't a plain number."""
        cell = self.next()
        if cell.name in LEB:
            return cell.number
        value = shift = 0
        while True:
            byte = cell.number
            if SIZES.get(cell.name) != 1 or byte is None:
                raise Unread(
                    cell.line + 1, f"`{cell.name} {cell.text}` in a debugger's table is no number"
                )
            value |= (byte & (CONTINUED - 1)) << shift
            if not byte & CONTINUED:
                return value
            shift += 7
            cell = self.next()

    def known_leb(self) -> int:
        """A plain number in LEB128."""
        value = self.leb()
        if value is None:
            raise Unread(
                self.cells[self.at - 1].line + 1, "a debugger's table has no plain number here"
            )
        return value

    def skip(self, size: int) -> None:
        """Goes past bytes, which end with an operand."""
        while size > 0:
            cell = self.next()
            size -= cell.size
        if size:
            raise Unread(
                self.cells[self.at - 1].line + 1, "an operand in a debugger's table crosses an end"
            )

    def skip_string(self) -> None:
        """Goes past a text, which ends with a byte 0."""
        while self.fixed(1).number:
            pass
