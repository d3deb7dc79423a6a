"""The scopes in `.debug_info`, as gcc and clang write it with -S: the entries that have two
addresses."""

from collections.abc import Iterator, Sequence
from dataclasses import dataclass

from fptools.layout.debug_cells import Cell, Stream, Unread

SCOPES = (0x0B, 0x1D, 0x22, 0x25, 0x32)
"""The tags of lexical blocks, inlined functions, `with`, `catch` and `try`."""

AT_LOW_PC, AT_HIGH_PC, AT_RANGES = 0x11, 0x12, 0x55
FORM_ADDRESS, FORM_DATA4, FORM_SECTION_OFFSET, FORM_IMPLICIT = 0x01, 0x06, 0x17, 0x21

SIZE_OF_FORM = {
    FORM_ADDRESS: 4, 0x05: 2, FORM_DATA4: 4, 0x07: 8, 0x0B: 1, 0x0C: 1, 0x0E: 4, 0x10: 4, 0x11: 1,
    0x12: 2, 0x13: 4, 0x14: 8, FORM_SECTION_OFFSET: 4, 0x19: 0, 0x1C: 4, 0x1D: 4, 0x1E: 16, 0x1F: 4,
    0x20: 8, FORM_IMPLICIT: 0, 0x24: 8, 0x25: 1, 0x26: 2, 0x27: 3, 0x28: 4, 0x29: 1, 0x2A: 2,
    0x2B: 3, 0x2C: 4,
}  # fmt: skip
"""The bytes of the forms that always take the same number of them."""

LEB_FORMS = (0x0D, 0x0F, 0x15, 0x1A, 0x1B, 0x22, 0x23)
LENGTH_OF_BLOCK = {0x03: 2, 0x04: 4, 0x0A: 1}
LEB_BLOCKS = (0x09, 0x18)
STRING = 0x08

VERSIONS = (2, 3, 4, 5)
TYPE_UNITS, ID_UNITS = (2, 6), (4, 5)
"""The kinds of units of DWARF 5 whose heads have a signature and an offset, or a number."""


@dataclass(frozen=True)
class Attribute:
    """An attribute and its form, with the lines of both in `.debug_abbrev`."""

    name: int
    form: int
    lines: tuple[int, int]


@dataclass(frozen=True)
class Abbreviation:
    """The form of an entry."""

    tag: int
    has_children: bool
    attributes: tuple[Attribute, ...]

    @property
    def high(self) -> Attribute | None:
        """The attribute for the address behind a scope."""
        found = [it for it in self.attributes if it.name == AT_HIGH_PC]
        return found[0] if found and self.tag in SCOPES else None


@dataclass(frozen=True)
class Scope:
    """An entry with two addresses: their operands, the line of the second, and its attribute."""

    start: str
    end: str
    line: int
    high: Attribute
    version: int


def abbreviations(given: Sequence[Cell]) -> dict[int, Abbreviation]:
    """The abbreviations of a unit, by their codes. Raises Unread."""
    stream, found = Stream(given), {}
    while not stream.is_at_end and (code := stream.known_leb()):
        tag, has_children = stream.known_leb(), bool(stream.known_leb())
        attributes = []
        while True:
            places, numbers = [], []
            for _ in range(2):
                stream.labels()
                places.append(stream.cells[stream.at].line)
                numbers.append(stream.known_leb())
            if numbers == [0, 0]:
                break
            if numbers[1] == FORM_IMPLICIT:
                stream.leb()
            attributes.append(Attribute(numbers[0], numbers[1], (places[0], places[1])))
        found[code] = Abbreviation(tag, has_children, tuple(attributes))
    if not stream.is_at_end:
        raise Unread(stream.next().line + 1, "a second table of abbreviations isn't known")
    return found


class Units:
    """Reads `.debug_info`."""

    def __init__(self, given: Sequence[Cell], known: dict[int, Abbreviation]) -> None:
        self.stream = Stream(given)
        self.abbreviations = known
        self.version = 0

    def scopes(self) -> Iterator[Scope]:
        """The scopes with two addresses. Raises Unread."""
        while not self.stream.is_at_end:
            self._head()
            depth = 0
            while True:
                code = self.stream.known_leb()
                if code and code not in self.abbreviations:
                    raise self._unread(f"an entry has the abbreviation {code}")
                if code:
                    yield from self._entry(self.abbreviations[code])
                depth += self.abbreviations[code].has_children if code else -1
                if depth <= 0:
                    break

    def _unread(self, why: str) -> Unread:
        return Unread(
            self.stream.cells[self.stream.at - 1].line + 1, f"a debugger's table isn't known: {why}"
        )

    def _head(self) -> None:
        """Goes past the head of a unit."""
        stream = self.stream
        if stream.fixed(4).number == 0xFFFF_FFFF:
            raise self._unread("it has 64 bits")
        self.version = stream.fixed(2).number or 0
        if self.version not in VERSIONS:
            raise self._unread(f"DWARF {self.version}")
        kind = (stream.fixed(1).number or 0) if self.version >= 5 else 0
        stream.skip(5)
        stream.skip(12 if kind in TYPE_UNITS else 8 if kind in ID_UNITS else 0)

    def _entry(self, abbreviation: Abbreviation) -> Iterator[Scope]:
        """Goes past the attributes of an entry, which may be a scope."""
        low = ""
        for it in abbreviation.attributes:
            if it.form not in (FORM_ADDRESS, FORM_DATA4) or it.name not in (AT_LOW_PC, AT_HIGH_PC):
                self._skip(it.form)
                continue
            cell = self.stream.fixed(4)
            if it.name == AT_LOW_PC:
                low = cell.text
            elif it == abbreviation.high:
                end, _, start = (
                    cell.text.rpartition("-") if it.form == FORM_DATA4 else (cell.text, "", low)
                )
                yield Scope(start, end, cell.line, it, self.version)

    def _skip(self, form: int) -> None:
        """Goes past a value."""
        stream = self.stream
        if form in SIZE_OF_FORM:
            stream.skip(SIZE_OF_FORM[form])
        elif form in LEB_FORMS:
            stream.leb()
        elif form in LENGTH_OF_BLOCK:
            cell = stream.fixed(LENGTH_OF_BLOCK[form])
            if cell.number is None:
                raise self._unread("a block of an unknown length")
            stream.skip(cell.number)
        elif form in LEB_BLOCKS:
            stream.skip(stream.known_leb())
        elif form == STRING:
            stream.skip_string()
        else:
            raise self._unread(f"form {form:#x}")
