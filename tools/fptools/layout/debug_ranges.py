"""The ranges of addresses in a debugger's tables, for functions whose blocks have moved.

A range in the compiler's assembly goes from a label to a label. In the new order it is several
pieces: each covers instructions that the range covered before, and no others. Lists of locations
and of ranges get an entry for each piece. A scope with two addresses gets a list of ranges."""

import re
from bisect import bisect_left
from collections.abc import Callable, Collection, Iterator, Mapping, Sequence
from dataclasses import dataclass

from fptools.layout.assembly import APP, IDENTIFIER, NO_APP
from fptools.layout.debug_cells import Unread, cells, sections
from fptools.layout.debug_lists import SECTIONS, List, Reader, Section

from fptools.layout.debug_scopes import (
    AT_RANGES, FORM_DATA4, FORM_SECTION_OFFSET, Attribute, Scope, Units, abbreviations,
)  # fmt: skip

Origin = tuple[int, ...]
"""The lines of the compiler's assembly whose state an instruction has. It is covered where all of
them are."""

NOWHERE: Origin = (0,)
"""The origin of an instruction that no range covers."""

Piece = tuple[str, str]
"""The operands for the first address of a range and for the address behind it."""

ADDRESS = re.compile(rf"({IDENTIFIER})([+-]\d+)?(?:-({IDENTIFIER}))?")
"""A label, an offset, and the label that it is relative to."""

INSIDE_CALL = -1
"""The offset of an address in the call before a label: there a debugger looks for the values of a
caller."""

IN_SECTION = re.compile(r"(\s*\.4byte\s+)([\w.$]+)\+(0x[0-9a-f]+|\d+)\s*")
"""A directive with a place in a section, by a label and an offset."""

OPERAND = re.compile(r"\s*\.\w+\s+")
"""A directive up to its operand."""


@dataclass
class Moved:
    """A function whose blocks have moved."""

    labels: dict[str, int]  # their lines in the compiler's assembly
    code: list[int]  # the lines of its instructions there
    origins: dict[
        int, Origin
    ]  # of its instructions in the new order, by the indices of their lines


@dataclass(frozen=True)
class Address:
    """An address in a moved function: twice the line of an instruction, and for its last byte one
    more."""

    function: Moved
    position: int


class Debugged:
    """Rewrites a debugger's tables for the new order."""

    def __init__(
        self, lines: list[str], functions: Sequence[Moved], new_label: Callable[[], str]
    ) -> None:
        self.lines = lines  # of the assembly in the new order
        self.new_label = new_label
        self.functions = {label: it for it in functions for label in it.labels}
        self.before: dict[int, str] = {}  # new labels by the indices of the lines after them
        self.behind: dict[int, str] = {}
        self.replaced: dict[int, list[str]] = {}

    def text(self) -> str:
        """The assembly with its tables in order. Raises Unread."""
        found = sections(self.lines)
        if any(name.endswith(".dwo") for name in found):
            raise Unread(
                0, "-gsplit-dwarf puts a debugger's tables into another file: leave it out"
            )
        for section in SECTIONS:
            given = cells(self.lines, found.get(section.name, ()))
            lists = list(Reader(section, given).lists())
            for it in lists:
                self._list(section, it)
            if section.version < 5 and not section.has_locations:
                self._name_lists({it.text for it in given[:1]}, lists, found.get(".debug_info", ()))
        added = self._scopes(found)
        return "\n".join([*self._written(), *added, ""]) if added else "\n".join(self._written())

    # ------------------------------------------------------------ ranges

    def pieces(self, start: str, end: str) -> list[Piece] | None:
        """The pieces of a range in the new order; None where it isn't in a moved function. Raises
        Unread."""
        first, behind = self._address(start), self._address(end)
        if first is None and behind is None:
            return None
        if first is None or behind is None or first.function is not behind.function:
            return []
        return self._runs(first.function, range(first.position, behind.position))

    def _address(self, operand: str) -> Address | None:
        found = ADDRESS.fullmatch(operand)
        if found is None or found[1] not in self.functions:
            return None
        function, offset = self.functions[found[1]], int(found[2] or 0)
        line = function.labels[found[1]]
        before = bisect_left(function.code, line) - 1
        if offset == 0 or offset == INSIDE_CALL and before < 0:
            return Address(function, 2 * line)
        if offset != INSIDE_CALL:
            raise Unread(0, f"`{operand}` in a debugger's table isn't known")
        return Address(function, 2 * function.code[before] + 1)

    def _runs(self, function: Moved, positions: range) -> list[Piece]:
        """The runs of instructions at some positions. The run that begins with the first position
        comes first."""
        found: list[Piece] = []
        start, is_first, last = "", False, -1

        def close(end: str) -> None:
            nonlocal start
            found.insert(0 if is_first else len(found), (start, end))
            start = ""

        for index, origin in sorted(function.origins.items()):
            whole, end = (all(2 * it + k in positions for it in origin) for k in (0, 1))
            if start and not whole:
                close(self._behind(last))
            if not start and (whole or end):
                is_first = 2 * min(origin) + (not whole) == positions.start
                start = self._before(index) if whole else f"{self._behind(index)}{INSIDE_CALL}"
            if start and not end:
                close(f"{self._behind(index)}{INSIDE_CALL}")
            last = index
        if start:
            close(self._behind(last))
        return found

    def _before(self, index: int) -> str:
        return self.before.setdefault(index, "") or self._new(self.before, index)

    def _behind(self, index: int) -> str:
        return self.behind.setdefault(index, "") or self._new(self.behind, index)

    def _new(self, labels: dict[int, str], index: int) -> str:
        labels[index] = self.new_label()
        return labels[index]

    # ------------------------------------------------------------ tables

    def _list(self, section: Section, given: List) -> None:
        """Writes an entry for each piece of an entry's range."""
        count, is_changed = 0, False
        for it in given.entries:
            pieces = self.pieces(it.start, it.end)
            count += 1 if pieces is None else len(pieces)
            if pieces is None:
                continue
            is_changed = True
            based = ADDRESS.fullmatch(it.start)
            base = based[3] if based else ""
            location = self.lines[it.location : it.last + 1]
            lines = [line for piece in pieces for line in section.head(*piece, base) + location]
            self._replace(range(it.first, it.last + 1), lines)
        if is_changed and given.views:
            self._replace(given.views, ["\t.byte\t0"] * 2 * count)

    def _name_lists(
        self, names: Collection[str], lists: Sequence[List], indices: Sequence[int]
    ) -> None:
        """Gives labels to lists of ranges to which `.debug_info` leads by the section's label and
        an offset."""
        at = {it.offset: it.first for it in lists}
        for index in indices:
            found = IN_SECTION.fullmatch(self.lines[index])
            if found and found[2] in names:
                offset = int(found[3], 0)
                if offset not in at:
                    raise Unread(
                        index + 1, f"`{self.lines[index].strip()}` in a debugger's table is no list"
                    )
                self.replaced[index] = [found[1] + self._before(at[offset])]

    def _replace(self, indices: Sequence[int], lines: list[str]) -> None:
        self.replaced.update({index: [] for index in indices})
        self.replaced[indices[0]] = lines

    def _scopes(self, found: Mapping[str, list[int]]) -> list[str]:
        """Gives scopes with two addresses a list of ranges, if one of their form has moved. Returns
        the lines of the lists."""
        known = abbreviations(cells(self.lines, found.get(".debug_abbrev", ())))
        scopes = Units(cells(self.lines, found.get(".debug_info", ())), known).scopes()
        by_form: dict[Attribute, list[tuple[Scope, list[Piece] | None]]] = {}
        for it in scopes:
            by_form.setdefault(it.high, []).append((it, self.pieces(it.start, it.end)))
        added: dict[int, list[str]] = {}
        for high, its in by_form.items():
            if any(pieces is not None for _, pieces in its):
                version = its[0][0].version
                form = FORM_SECTION_OFFSET if version >= 4 else FORM_DATA4
                for line, number in zip(high.lines, (AT_RANGES, form)):
                    self._operand(line, f"{number:#x}")
                for scope, pieces in its:
                    label = self.new_label()
                    self._operand(scope.line, label)
                    own = [(scope.start, scope.end)] if pieces is None else pieces
                    added.setdefault(version, []).extend(range_list(label, own, version))
        return [line for version, lines in added.items() for line in self._section(lines, version)]

    def _operand(self, index: int, operand: str) -> None:
        """Replaces the operand of a line."""
        found = OPERAND.match(self.lines[index])
        assert found
        self.replaced[index] = [found[0] + operand]

    def _section(self, lists: list[str], version: int) -> list[str]:
        """A section with lists of ranges."""
        if version < 5:
            return ['\t.section\t.debug_ranges,"",@progbits', *lists]
        first, end = self.new_label(), self.new_label()
        head = [
            f"\t.4byte\t{end}-{first}",
            f"{first}:",
            "\t.2byte\t5",
            "\t.byte\t4",
            "\t.byte\t0",
            "\t.4byte\t0",
        ]
        return ['\t.section\t.debug_rnglists,"",@progbits', *head, *lists, f"{end}:"]

    def _written(self) -> Iterator[str]:
        """The lines, with the new labels outside of the source's asm."""
        by_hand = False
        for index, line in enumerate(self.lines):
            by_hand = line.strip() == APP or by_hand and line.strip() != NO_APP
            for label, lines in (
                (self.before.get(index), ()),
                (None, self.replaced.get(index, [line])),
                (self.behind.get(index), ()),
            ):
                yield from lines
                if label:
                    yield from (NO_APP, f"{label}:", APP) if by_hand else (f"{label}:",)


def range_list(label: str, pieces: Sequence[Piece], version: int) -> list[str]:
    """A list of ranges. Before DWARF 5 its addresses are relative to a base, which is set to 0."""
    section = next(it for it in SECTIONS if not it.has_locations and it.version == max(4, version))
    lines = [f"{label}:"] + ["\t.4byte\t0xffffffff", "\t.4byte\t0"] * (version < 5)
    for piece in pieces:
        lines += section.head(*piece, "")
    return lines + (["\t.byte\t0"] if version >= 5 else ["\t.4byte\t0"] * 2)
