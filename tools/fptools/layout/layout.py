"""Orders the blocks of compiled functions so that the analyser takes each loop, and nothing leaves a section."""

import re
from collections.abc import Sequence
from dataclasses import dataclass, field

from fptools.layout.assembly import (
    TRAPS,
    Assembly,
    Fault,
    Function,
    Kind,
    Statement,
    Stays,
    source_of,
    statements,
)
from fptools.layout.blocks import Block, Body, body_of, skip_jumps
from fptools.layout.copies import rotate, split_ends, split_entries
from fptools.layout.debug_cells import Unread
from fptools.layout.debug_ranges import Debugged, Moved, Origin
from fptools.layout.emission import Names, Writer, as_compiled, ends_of, mark_far
from fptools.layout.loop_marks import check_marks, with_records
from fptools.layout.block_order import (
    MOST_AROUND,
    Flows,
    Irreducible,
    Loop,
    Nest,
    NoOrder,
    Order,
    Section,
)
from fptools.layout.same_flow import do_the_same

MOST_COPIES = 2000
"""The default limit of copied instructions of a function."""

OWN_FAULT = "this is a fault of fp_layout, please report it"

MOST_PASSES = 20
"""With copies of tests, a function is laid out so often at most."""

MOST_BYTES = 1 << 20
"""The reach of a jump."""

PARTNERS = (
    ("begin", "end"),
    ("start", "end"),
    ("start", "stop"),
    ("from", "to"),
    ("first", "last"),
    ("enter", "leave"),
)
"""Words by which the names of two marks make a section."""


@dataclass(frozen=True)
class Message:
    """A message about a line of the assembly (0: the whole file)."""

    line: int
    text: str


@dataclass(frozen=True)
class Marks:
    """The names of a section's marks. A guess is dropped where no order satisfies it."""

    first: str
    end: str
    is_guess: bool = False

    def __str__(self) -> str:
        return f"{self.first}:{self.end}"


@dataclass(frozen=True)
class Options:
    """Options of the layout."""

    sections: tuple[Marks, ...] = ()
    rotate: int = 0  # the most instructions of a loop's test that is copied; 0: none is
    most_copies: int = MOST_COPIES


@dataclass
class Laid:
    """The assembly in the new order, messages about functions that stay as they are, and further notes."""

    text: str = ""
    kept: list[Message] = field(default_factory=list)
    notes: list[Message] = field(default_factory=list)


def lay_out(assembly: Assembly, options: Options = Options()) -> Laid:
    """Lays out all functions, and replaces loop marks by records. Raises Fault."""
    check_marks(assembly.text)
    return _Layout(assembly, options).run()


def partner(mark: str, marks: Sequence[str]) -> str | None:
    """The end mark for a begin mark, by their names."""
    for begin, end in PARTNERS:
        for name in _with_word(mark, begin, end):
            if name in marks:
                return name
    return None


def _with_word(mark: str, begin: str, end: str) -> list[str]:
    """A mark's name with one word replaced."""
    words = re.split(r"(_)", mark)
    return [
        "".join([*words[:k], end, *words[k + 1 :]]) for k, word in enumerate(words) if word == begin
    ]


@dataclass
class _Layout:
    assembly: Assembly
    options: Options
    laid: Laid = field(default_factory=Laid)

    def __post_init__(self) -> None:
        self.names = Names(self.assembly.labels)
        self.of_function = {
            it.name: list(statements(self.assembly.body(it), it.first + 2))
            for it in self.assembly.functions
        }
        self.places: dict[str, tuple[str, int]] = {}
        for name, own in self.of_function.items():
            for it in filter(_is_mark, own):
                if it.name in self.places:
                    why = (
                        "the compiler doubled its place, by inlining or unrolling: __attribute__((noinline)) on the "
                        "functions between the marks, and no `continue` there, prevents that"
                    )
                    raise Fault(
                        it.line, f"mark {it.name} is also at line {self.places[it.name][1]}: {why}"
                    )
                self.places[it.name] = name, it.line
        self.flags = self._line_flags()
        self.origins: dict[
            str, dict[int, Origin]
        ] = {}  # of the instructions of the functions that were written

    def _line_flags(self) -> dict[str, bool]:
        """The line table's flag `is_stmt` before each function."""
        flags, first, flag = {}, 0, True
        for function in self.assembly.functions:
            for line in self.assembly.lines[first : function.first]:
                if "is_stmt" in line and (
                    found := re.match(r"\s*\.loc\b.*\bis_stmt\s+([01])", line)
                ):
                    flag = found[1] == "1"
            flags[function.name], first = flag, function.first
        return flags

    def run(self) -> Laid:
        sections = self._sections()
        out: list[str] = []
        done, moved = 0, []
        for function in self.assembly.functions:
            out += self.assembly.lines[done : function.first + 1]
            done = function.end
            try:
                lines = self._function(function, sections.get(function.name, []))
            except Stays as why:
                self.laid.kept.append(
                    Message(why.line, f"{function.name} stays as it is: {why.why}")
                )
                lines = self.assembly.body(function)
                self.origins.pop(function.name, None)
            if function.name in self.origins:
                moved.append(self._moved(function, len(out)))
            out += lines
        self.laid.text = with_records(self._debugged(out + self.assembly.lines[done:], moved))
        return self.laid

    def _debugged(self, lines: list[str], moved: list[Moved]) -> str:
        """The text of the new lines, with a debugger's tables of the functions that have moved. Raises Fault."""
        if not moved:
            return "\n".join(lines)
        try:
            return Debugged(lines, moved, self.names.new).text()
        except Unread as why:
            # The tables come behind all code.
            line = why.line - (len(lines) - len(self.assembly.lines)) if why.line else 0
            raise Fault(max(0, line), f"{why.why}: leave out -g, or try -gdwarf-4") from None

    def _moved(self, function: Function, first: int) -> Moved:
        """What a debugger's tables need of a function whose new body has its first line at an index."""
        own = self.of_function[function.name]
        labels = {it.name: it.line for it in own if it.kind is Kind.LABEL}
        code = [it.line for it in own if it.kind is Kind.CODE]
        return Moved(
            labels, code, {first + index: it for index, it in self.origins[function.name].items()}
        )

    # ------------------------------------------------------------ sections

    def _sections(self) -> dict[str, list[Marks]]:
        """The sections of each function. Raises Fault for unknown marks, and for marks in two functions."""
        found = list(self.options.sections)
        for mark in sorted(self.places):
            end = partner(mark, list(self.places))
            if end and mark not in {it.first for it in found}:
                found.append(Marks(mark, end))
        by_function: dict[str, list[Marks]] = {}
        for marks in found:
            for mark in (marks.first, marks.end):
                if mark not in self.places:
                    raise Fault(0, f"section {marks}: no asm of a function has the label `{mark}`")
            (first, line), (end, _) = self.places[marks.first], self.places[marks.end]
            if first != end:
                raise Fault(line, f"section {marks} begins in {first} and ends in {end}")
            by_function.setdefault(first, []).append(marks)
        return by_function

    def _with_guesses(self, body: Body, flows: Flows, marks: list[Marks]) -> list[Marks]:
        """Adds a section from each mark without a partner to the next mark, if all paths meet the same one."""
        at = {label: index for index, block in enumerate(body.blocks) for label in block.marks}
        paired = {it.first for it in marks} | {it.end for it in marks}
        guesses = []
        for mark in sorted(at.keys() - paired):
            others = {at[it] for it in at if it != mark} - {at[mark]}
            blocks = flows.reach(at[mark], others)
            met = {to for index in blocks for to in flows.next_blocks[index] if to in others}
            if len(met) == 1:
                guesses.append(Marks(mark, sorted(body.blocks[met.pop()].marks)[0], True))
        return marks + guesses

    def _section(self, nest: Nest, body: Body, marks: Marks) -> Section | None:
        """The blocks of a section. Raises Fault where its marks cross a loop; returns None for such a guess."""
        at = {label: index for index, block in enumerate(body.blocks) for label in block.marks}
        first, end = at[marks.first], at[marks.end]
        if not {first, end} <= nest.flows.reached or first == end:
            return None
        section = nest.flows.section(first, end)
        why = self._crossing(nest, body, section)
        if why and not marks.is_guess:
            raise Fault(self.places[marks.first][1], f"section {marks} {why}")
        return None if why else section

    def _crossing(self, nest: Nest, body: Body, section: Section) -> str:
        """Why a section can't be between its marks. Empty where it may be."""
        if not any(section.end in nest.flows.next_blocks[index] for index in section.blocks):
            return "never reaches its end"
        begins_in, ends_in = nest.around(section.first), nest.around(section.end)
        for loop in begins_in:
            if loop not in ends_in:
                return f"crosses a loop: it begins inside and ends outside of {self._place(body, loop)}"
            if section.end == loop.head:
                return f"crosses a loop: it ends at the head of {self._place(body, loop)}, inside which it begins"
            if any(loop.head in nest.flows.next_blocks[index] for index in section.blocks):
                return (
                    f"crosses a loop: {self._place(body, loop)} goes round without passing its end"
                )
        for loop in ends_in:
            if loop not in begins_in and section.end != loop.head:
                return f"crosses a loop: it begins outside and ends inside of {self._place(body, loop)}"
        return ""

    def _place(self, body: Body, loop: Loop) -> str:
        """A loop's place in the assembly, and in the source where it is known."""
        line = body.blocks[loop.head].line
        source = source_of(self.assembly.lines, line)
        return f"the loop at line {line}" + (f" ({source})" if source else "")

    # ------------------------------------------------------------ functions

    def _function(self, function: Function, marks: list[Marks]) -> list[str]:
        """The lines of a function's body in the new order.

        Copies of tests may make others possible, so this repeats until nothing changes."""
        lines = self._once(
            function, self.of_function[function.name], self.assembly.body(function), marks
        )
        for _ in range(MOST_PASSES if self.options.rotate else 0):
            notes = list(self.laid.notes)
            again = self._once(function, list(statements(lines, function.first + 2)), lines, marks)
            self.laid.notes = notes
            if again == lines:
                break
            lines = again
        return lines

    def _once(
        self, function: Function, own: list[Statement], lines: list[str], marks: list[Marks]
    ) -> list[str]:
        body = body_of(own, self.flags[function.name])
        compiled = body.kept()
        if not any(block.code or block.stop for block in body.blocks):
            return lines
        is_copied = split_entries(body.blocks, self.options.most_copies)
        if self.options.rotate:
            is_copied = rotate(body.blocks, self.options.rotate) or is_copied
        nest = self._nest(body)
        sections = self._found_sections(body, nest, marks)
        self._note(function, body, nest, sections)
        if not is_copied and self._is_done(body, nest, [section for _, section in sections]):
            return self._with_direct_calls(function, body, lines)
        left_out = skip_jumps(body.blocks)
        order = [index for index in self._order(body, marks) if index not in left_out]
        return self._written(function, compiled, body, order)

    def _found_sections(
        self, body: Body, nest: Nest, marks: list[Marks]
    ) -> list[tuple[Marks, Section]]:
        found = [
            (it, self._section(nest, body, it))
            for it in self._with_guesses(body, nest.flows, marks)
        ]
        return [(it, section) for it, section in found if section]

    @staticmethod
    def _nest(body: Body) -> Nest:
        try:
            return Nest(Flows(body.blocks))
        except Irreducible:
            raise Fault(
                body.blocks[0].line, f"a loop has two entries after copies: {OWN_FAULT}"
            ) from None

    def _note(
        self, function: Function, body: Body, nest: Nest, sections: list[tuple[Marks, Section]]
    ) -> None:
        """Notes loops that lie too deep, and returns in a section: no order helps against these."""
        for loop in nest.loops.values():
            inside = [section.blocks for _, section in sections if loop.blocks <= section.blocks]
            depth = min(
                (
                    sum(it.blocks <= blocks for it in nest.around(loop.head)) - 1
                    for blocks in inside
                ),
                default=loop.depth,
            )
            if depth == MOST_AROUND + 1:
                text = f"{self._place(body, loop)} lies in {depth} others, and a bound takes {MOST_AROUND}"
                self.laid.notes.append(
                    Message(body.blocks[loop.head].line, f"{function.name}: {text}")
                )
        for marks, section in sections:
            stops = [stop for index in section.blocks if (stop := body.blocks[index].stop)]
            for stop in stops if not marks.is_guess else []:
                if stop.text.split()[0] not in TRAPS:
                    text = f"{function.name}: section {marks} has a return before its end, which no bound goes through"
                    self.laid.notes.append(Message(stop.line, text))

    @staticmethod
    def _is_done(body: Body, nest: Nest, sections: list[Section]) -> bool:
        """Whether the analyser takes the compiler's order, all targets are in reach, and control stays in the function."""
        blocks = body.blocks
        runs_out = any(blocks[index].is_open for index in nest.flows.reached)
        far = mark_far(blocks, range(len(blocks)), as_compiled(blocks))
        return nest.is_in_order(sections) and not runs_out and not far

    @staticmethod
    def _with_direct_calls(function: Function, body: Body, compiled: list[str]) -> list[str]:
        """The lines of a function, with calls of one word."""
        lines = list(compiled)
        for block in body.blocks:
            for item in block.code:
                if not item.by_hand and item.text.startswith("\tjal\t"):
                    lines[item.line - function.first - 2] = item.text
        return lines

    def _order(self, body: Body, marks: list[Marks]) -> list[int]:
        """The order of the blocks. Raises Fault where there is none.

        Sections may get copies of the blocks that don't reach their end. Then guesses are dropped.
        """
        for is_sure in (False, True):
            nest = self._nest(body)
            sections = [
                it
                for it in self._found_sections(body, nest, marks)
                if not (is_sure and it[0].is_guess)
            ]
            for _ in range(len(sections) + 1):
                try:
                    order = Order(nest, [section for _, section in sections]).made()
                    return order + [
                        index
                        for index in range(len(body.blocks))
                        if index not in nest.flows.reached
                    ]
                except NoOrder:
                    if not any(
                        split_ends(body.blocks, it, self.options.most_copies) for _, it in sections
                    ):
                        break
                    nest = self._nest(body)
                    wanted = {str(it) for it, _ in sections}
                    sections = [
                        it for it in self._found_sections(body, nest, marks) if str(it[0]) in wanted
                    ]
        names = " and ".join(str(it) for it, _ in sections)
        line = self.places[sections[0][0].first][1]
        raise Fault(line, f"no order of blocks has the code of {names} between the marks")

    def _written(
        self, function: Function, compiled: list[Block], body: Body, order: list[int]
    ) -> list[str]:
        """Writes the blocks in an order, reads the lines again, and compares them with the compiler's."""
        ends = ends_of(body.blocks, order)
        mark_far(body.blocks, order, ends)
        size = sum(body.blocks[index].size + end.size for index, end in zip(order, ends))
        if size >= MOST_BYTES:
            raise Stays(
                function.first + 1, f"it takes {size} bytes, and a jump reaches {MOST_BYTES}"
            )
        if body.lost_frame:
            text = f"{function.name}: its call frames are lost for a debugger: `{body.lost_frame}` isn't known"
            self.laid.notes.append(Message(function.first + 1, text))
        flag = self.flags[function.name]
        writer = Writer(body, self.names, flag)
        lines = writer.write(order, ends)
        again = body_of(statements(lines, 1), flag)
        same = do_the_same(compiled, again.blocks)
        if not same or not Nest(Flows(again.blocks)).is_in_order([]):
            raise Fault(function.first + 1, f"{function.name} would do another thing: {OWN_FAULT}")
        self._note_origins(function, writer.origins)
        return lines

    def _note_origins(self, function: Function, origins: dict[int, Origin]) -> None:
        """Keeps the origins of new lines. Those of a second layout lead to lines of the first one."""
        first, before = function.first + 2, self.origins.get(function.name)
        if before is not None:
            origins = {
                index: tuple(line for it in origin for line in before.get(it - first, (it,)))
                for index, origin in origins.items()
            }
        self.origins[function.name] = origins


def _is_mark(it: Statement) -> bool:
    """Whether the source defines it: a label that the compiler wouldn't."""
    return it.kind is Kind.LABEL and not it.name.startswith(".L") and not it.name.isdigit()
