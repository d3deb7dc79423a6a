"""Lists of ranges and of locations in a debugger's tables, as gcc and clang write them with -S."""

import re
from collections.abc import Iterator, Mapping, Sequence
from dataclasses import dataclass, field

from fptools.layout.debug_cells import SIZES, Cell, Stream, Unread

VIEWS = re.compile(r"\.LVUS\d+")
"""The labels of view numbers, a pair for each entry of the list that follows."""

VIEW_PAIR = 9
"""The kind of an entry with two view numbers for the next one."""

BASE_BEFORE_5 = ("-1", "0xffffffff", "4294967295")
"""The first operand of an entry that sets the base address, before DWARF 5."""


@dataclass(frozen=True)
class Entry:
    """An entry with a range of addresses: its first and last line, the line where its location
    begins, and the range."""

    first: int
    last: int
    location: int  # behind the last line where it has none
    start: str
    end: str


@dataclass
class List:
    """A list: its first line, the lines of its view numbers, and its entries with a range."""

    first: int = 0
    offset: int = 0  # in its section; known of ranges before DWARF 5
    views: list[int] = field(default_factory=list)
    entries: list[Entry] = field(default_factory=list)


@dataclass(frozen=True)
class Section:
    """A section with lists."""

    name: str
    version: int  # 5, or 4 for all versions before
    has_locations: bool
    kept: Mapping[int, str] = field(
        default_factory=dict
    )  # kinds of entries without a range, and their operands
    ranges: Mapping[int, str] = field(
        default_factory=dict
    )  # a: an address, n: a number, l: a length
    start_end: int = 0  # the kind of an entry with two addresses

    def head(self, start: str, end: str, base: str) -> list[str]:
        """The lines of a range. Before DWARF 5 its addresses are relative to a base, where one is
        given."""
        relative = f"-{base}" if base and self.version < 5 else ""
        kind = [f"\t.byte\t{self.start_end:#x}"] * (self.version >= 5)
        return [*kind, f"\t.4byte\t{start}{relative}", f"\t.4byte\t{end}{relative}"]


SECTIONS = (
    Section(
        ".debug_loclists", 5, True, {1: "n", 5: "", 6: "a"}, {3: "nl", 4: "nn", 7: "aa", 8: "al"}, 7
    ),
    Section(".debug_rnglists", 5, False, {1: "n", 5: "a"}, {3: "nl", 4: "nn", 6: "aa", 7: "al"}, 6),
    Section(".debug_loc", 4, True),
    Section(".debug_ranges", 4, False),
)


class Reader:
    """Reads the lists of a section."""

    def __init__(self, section: Section, given: Sequence[Cell]) -> None:
        self.section = section
        self.stream = Stream(given)
        self.last = -1  # the last line of the entry before
        self.offset = 0  # of the next pair of addresses

    def lists(self) -> Iterator[List]:
        """The lists. Raises Unread."""
        stream = self.stream
        while not stream.is_at_end:
            found = List()
            if any(VIEWS.fullmatch(it.text) for it in stream.labels()):
                while not stream.cells[stream.at].is_label:
                    found.views.append(stream.next().line)
                stream.labels()
            found.first, found.offset = stream.cells[stream.at].line, self.offset
            if self.section.version < 5:
                self._before_5(found)
            elif SIZES.get(stream.cells[stream.at].name) == 4:
                self._head()
            else:
                self._version_5(found)
            yield found

    def _unread(self, cell: Cell, why: str) -> Unread:
        return Unread(cell.line + 1, f"a list in {self.section.name} isn't known: {why}")

    def _head(self) -> None:
        """Goes past the head of a section's lists, and the table of their offsets."""
        self.stream.skip(8)
        for _ in range(self.stream.fixed(4).number or 0):
            self.stream.fixed(4)

    def _version_5(self, found: List) -> None:
        stream, section = self.stream, self.section
        first = None
        while (cell := stream.fixed(1)).number:
            kind = cell.number
            if kind == VIEW_PAIR and section.has_locations:
                _ = stream.leb(), stream.leb()
                first = first or cell
            elif kind in section.kept:
                for how in section.kept[kind]:
                    self._operand(how)
                self._location()
                first = None
            elif kind in section.ranges:
                start, end = map(self._operand, section.ranges[kind])
                if section.ranges[kind].endswith("l"):
                    start, end = self._by_length(cell, start, end, section.ranges[kind])
                self._add(found, first or cell, start, end)
                first = None
            else:
                raise self._unread(cell, f"an entry of kind {kind}")

    def _operand(self, how: str) -> str:
        """The text of an operand."""
        if how == "a":
            return self.stream.fixed(4).text
        at = self.stream.at
        number = self.stream.leb()
        return (
            str(number)
            if number is not None
            else self.stream.cells[max(at, self.stream.at - 1)].text
        )

    def _by_length(self, cell: Cell, start: str, length: str, how: str) -> tuple[str, str]:
        """The two addresses of a range with a length, which is the difference of both."""
        end, _, first = (
            length.rpartition("-")
            if how[0] == "n"
            else (length.removesuffix(f"-{start}"), "", start)
        )
        if not end or end == length:
            raise self._unread(cell, f"the length `{length}`")
        return first, end

    def _before_5(self, found: List) -> None:
        stream = self.stream
        while True:
            first, second = stream.fixed(4), stream.fixed(4)
            self.offset += 8
            if first.number == second.number == 0:
                return
            if first.text.lower() not in BASE_BEFORE_5:
                self._add(found, first, first.text, second.text)

    def _add(self, found: List, first: Cell, start: str, end: str) -> None:
        location = (
            self.stream.cells[self.stream.at].line
            if self.stream.at < len(self.stream.cells)
            else first.line
        )
        if self.section.has_locations:
            self._location()
        last = self.stream.cells[self.stream.at - 1].line
        if first.line <= self.last:
            raise self._unread(first, "several entries in a line")
        self.last = last
        found.entries.append(
            Entry(
                first.line, last, location if self.section.has_locations else last + 1, start, end
            )
        )

    def _location(self) -> None:
        """Goes past an expression."""
        if not self.section.has_locations:
            return
        if self.section.version >= 5:
            self.stream.skip(self.stream.known_leb())
            return
        length = self.stream.fixed(2)
        if length.number is None:
            raise self._unread(length, "a location of an unknown length")
        self.stream.skip(length.number)
