"""Bounds of sections against budgets. Whatever isn't certain is unknown, and never taken to hold."""
from __future__ import annotations

import tempfile
from dataclasses import dataclass, field
from functools import cached_property
from pathlib import Path
from typing import TYPE_CHECKING, Collection, Mapping, Sequence

from fptools.program.answers import Bound, NoAnswer, Refusal
from fptools.budget.files import Assumption, Budget, LoopFact, Result, Verdict
from fptools.files.elf import Program, ProgramError, other_word
from fptools.flow.inference import Inference, StatedLoop
from fptools.code.moved import NoLines, NotKnown, moved_word
from fptools.program.calls import Answer, Flexpret
from fptools.code.returns import wrong_return
from fptools.code.section import Exit, Loop, Section, WayOut, walk_all
from fptools.files.setup import Setup
from fptools.files.sources import Sources
from fptools.stack.flow import SP
from fptools.stack.room import is_data
from fptools.stack.thread_depths import NO_OTHER_TRAP
from fptools.stack.stacks import Stack, Stacks
from fptools.code.thread import Code, ThreadCode, entries_of
from fptools.code.values import clobbered_by
from fptools.isa.words import MRET, OPCODE_AUIPC, OPCODE_JALR, OPCODE_LOAD, RETURN_ADDRESS, Word

if TYPE_CHECKING:
    from fptools.budget.path_facts import PathFacts

__all__ = ["HELP", "Assumption", "Budget", "Judge", "Result", "Unknown", "Verdict"]

# The remedy for a refusal of the program, by its name.
HELP = {
    "Nesting": "the loop is entered elsewhere than at its head, or tables overlap: lay the code out by fp_layout, "
    "or take the tables that fp_loops writes",
    "IndirectJump": "a jump through a register: a switch by a table (-fno-jump-tables), a call through a pointer, "
    "or a return inside of the section",
    "TimedWait": "a wait takes as long as its moment says: end the section before it",
    "UnboundedBackEdge": "no [[loop]] of the setup states this loop: write the table that fp_loops gives",
    "Overlap": "this function has words of the section",
    "Recursion": "its calls lead back to it: rewrite it as a loop",
    "Escape": "it leaves its function other than by `ret`: a tail call (-fno-optimize-sibling-calls), another "
    "function of the same code (-fno-ipa-icf), or a part of it elsewhere (-fno-reorder-blocks-and-partition)",
    "NotHard": 'the thread doesn\'t start hard and awake: its [[thread]] table has mode = "hard", and no thread without a table does',
    "NoSlot": "no slot is the thread's own",
}
LONG_CALL = "a call by AUIPC and JALR, which the linker didn't shorten, as of clang: compile by -S, or with gcc"
LESS_STACK = "less data or stack, or a larger region: docs/C.md#the-stack"
KEEP = "FP_KEEP(value) before the mark at the end keeps it in"
# The remedy for an exit of a section, and for one of a function.
EXIT_HELP = {
    Exit.CALL: "calls = true goes through functions that are called by x1",
    Exit.ELSEWHERE: "lay the code out by fp_layout, or name the address in `exits` if it may end there",
    Exit.INDIRECT: "a switch by a table (-fno-jump-tables), or a call through a pointer",
    Exit.WAIT: "it takes as long as its moment says: end the section before it",
    Exit.MISSING: "is the address right?",
}
FUNCTION_HELP = {
    **EXIT_HELP,
    Exit.CALL: "it calls no function with a size: in assembler, .type and .size",
    Exit.ELSEWHERE: HELP["Escape"].removeprefix("it leaves its function other than by `ret`: "),
}


class Unknown(Exception):
    """The reason why a budget is unknown."""


@dataclass
class Asked:
    """A budget with the code that it is of: its section first, then the functions that this calls."""

    budget: Budget
    parts: list[Section]
    exits: set[int]
    # Where an execution begins: the section's first word, or the function that is asked for by a call of the tool's own.
    begin: int
    notes: list[str] = field(default_factory=list)
    loops: list[LoopFact] = field(default_factory=list)
    stack: Stack | None = None
    # Of a period: the words that lead to the code. Each of their returns has to go back to its call too.
    before: Collection[Word] = ()

    @property
    def section(self) -> Section:
        return self.parts[0]

    @property
    def loads_a_return(self) -> bool:
        """Whether a word of its code, or of what leads to it, loads x1 or sp from memory, as a
        function does that calls others."""
        return any(it.rd in (RETURN_ADDRESS, SP) for it in self.loads)

    @property
    def loads(self) -> list[Word]:
        """The loads of its code, and of what leads to it."""
        words = [*self.before, *(word for part in self.parts for word in part.reached.values())]
        return [it for it in words if it.opcode == OPCODE_LOAD]

    def assumes(self, what: Assumption, note: str) -> bool:
        """Whether the budget takes something for granted; then it is noted."""
        if what not in self.budget.assume:
            return False
        self.notes.append(f"assumes {what.value}: {note}")
        return True


@dataclass
class Judge:
    """Asks the program for bounds, and looks at all that these may leave out."""

    flexpret: Flexpret
    setup: Setup
    image: Mapping[int, int]
    program: Program
    sources: Sources = field(default_factory=lambda: Sources(None))
    # Calls that the tool put beside the code, each with the function that it calls.
    put_calls: Mapping[int, int] = field(default_factory=dict)
    is_of_function: bool = False  # whether the sections are calls of functions
    has_paths: bool = False  # whether results have the path that costs the bound
    _threads: dict[int, ThreadCode] = field(default_factory=dict)
    _changes: dict[int, frozenset[int]] = field(default_factory=dict)

    def judge(self, budget: Budget) -> Result:
        try:
            asked = self.asked(budget)
            bound = self._bound(asked)
        except (Unknown, ProgramError) as why:
            return self.unknown(budget, why)
        is_over = budget.cycles is not None and bound > budget.cycles
        time = bound * self.setup.period
        text = f"{bound} of {budget.cycles} cycles ({time} ns)"
        return Result(
            budget,
            Verdict.OVER if is_over else Verdict.HOLDS,
            text if budget.cycles is not None else f"{bound} cycles ({time} ns)",
            bound,
            time,
            tuple(asked.notes),
            tuple(asked.loops),
            tuple(self.where(part.start) for part in asked.parts[1:]),
            stack=asked.stack,
            path=self._path(asked, bound) if self.has_paths else None,
        )

    def _path(self, asked: Asked, bound: int) -> PathFacts:
        """The path that costs the bound, by a search of its own."""
        from fptools.budget.path_facts import facts_of
        from fptools.budget.paths import Search

        search = Search(self.setup, asked.budget.thread, self.image, asked.parts)
        return facts_of(search, bound, self.program, self.sources)

    def unknown(self, budget: Budget, why: Exception) -> Result:
        """The reason why a budget is unknown, and whether the sources are of another build."""
        text, other = str(why), self.other_source
        is_told = not other or other in text
        return Result(budget, Verdict.UNKNOWN, text if is_told else f"{text}; {other}")

    def asked(self, budget: Budget) -> Asked:
        """A budget with the code that it is of."""
        if self._other_word:
            raise Unknown(self._other_word)
        start, end = self._address(budget.start), self._address(budget.end)
        functions = self.program.functions if budget.calls else []
        parts = walk_all(self.image, start, end, functions)
        exits = {self._address(it) for it in budget.exits}
        lines = (self.program.line_of(pc) for part in parts for pc in part.reached)
        self.sources.look_at({line for line in lines if line is not None})
        return Asked(budget, parts, exits, self.put_calls.get(start, start))

    def _bound(self, asked: Asked) -> int:
        """The bound, once nothing is found that it leaves out."""
        bound = self._answered(self._ask(asked))
        self.look_at_code(asked)
        thread = self.thread(asked.budget.thread)
        self._look_at_fetches(asked)
        self._look_at_reach(asked, thread)
        self._look_at_writes(asked)
        self._look_at_loops(asked)
        self._look_at_traps(asked, thread)
        self._look_at_moved_work(asked, thread)
        self._look_at_sources(asked)
        if bound == 0:
            raise Unknown("a bound of 0: nothing of the section issues")
        self._look_at_stack(asked)
        return bound

    def look_at_code(self, asked: Asked) -> None:
        """The section and its functions are only left as intended."""
        self._look_at(asked)
        self.look_at_functions(asked.parts[1:])

    def _answered(self, answer: Answer) -> int:
        """The number that the program writes. The message of a refusal has its place and a remedy."""
        text = f"status {answer.status}: {answer.reason}"
        try:
            found = answer.read()
        except NoAnswer:
            raise Unknown(text) from None
        if isinstance(found, Bound):
            return found.cycles
        raise Unknown(self.refusal(found, text, found.address))

    def refusal(self, found: Refusal, text: str, at: int | None) -> str:
        """The message of a refusal of the program, with its place in the code and a remedy."""
        place = f", {self.where(at)}" if at is not None and self.program.path else ""
        helps = LONG_CALL if at is not None and self._is_long_call(at) else HELP.get(found.name)
        return text + place + (f": {helps}" if helps else "")

    def _is_long_call(self, pc: int) -> bool:
        """Whether a word is the second of a call by AUIPC and JALR."""
        word, before = self._code.word(pc), self._code.word(pc - 4)
        return (
            word.opcode == OPCODE_JALR and before.opcode == OPCODE_AUIPC and before.rd == word.rs1
        )

    def where(self, pc: int) -> str:
        """An address with its symbol and source line."""
        line = self.program.line_of(pc)
        return f"{pc:#x} {self.program.name_of(pc)}".rstrip() + (f" ({line})" if line else "")

    def _address(self, value: int | str) -> int:
        return value if isinstance(value, int) else self.program.address(value)

    def _way(self, way: WayOut, is_function: bool) -> str:
        to = "" if way.to is None else f" to {self.where(way.to)}"
        helps = (FUNCTION_HELP if is_function else EXIT_HELP).get(way.exit)
        if way.word.bits == MRET:
            helps = "MRET leaves a trap handler"
        elif self._is_long_call(way.word.pc):
            helps = LONG_CALL
        return f"{self.where(way.word.pc)}{to}: {way.exit.value}" + (f"; {helps}" if helps else "")

    def _look_at(self, asked: Asked) -> None:
        """A section is left at its end, or where that is meant."""
        section, exits = asked.section, asked.exits
        for way in section.ways_out:
            meant = way.exit is Exit.END or way.exit is Exit.ELSEWHERE and way.to in exits
            if not meant:
                raise Unknown(self._way(way, False))
        if not any(way.exit is Exit.END or way.to in exits for way in section.ways_out):
            raise Unknown("no path leads to the section's end")

    def look_at_functions(self, routines: list[Section]) -> None:
        """A called function is only left by `ret`, and has at least one."""
        for way in (it for routine in routines for it in routine.ways_out):
            if way.exit is not Exit.RETURN:
                raise Unknown(self._way(way, True))
        for routine in routines:
            if not routine.ends:
                raise Unknown(
                    f"{self.where(routine.start)}: a function that is called never returns"
                )
            wrong = wrong_return(routine, self._clobbered, self.image)
            if wrong is not None:
                raise Unknown(
                    f"{self.where(wrong.pc)}: it isn't certain that this goes back to the call: x1 and x2 change"
                )

    def _clobbered(self, function: int) -> frozenset[int]:
        if function not in self._changes:
            self._changes[function] = clobbered_by(self.image, function)
        return self._changes[function]

    @cached_property
    def _other_word(self) -> str:
        return other_word(self.program, self.image)

    @cached_property
    def _code(self) -> Code:
        return Code(self.image, entries_of(self.setup))

    def thread(self, number: int) -> ThreadCode:
        """The code that a thread may run."""
        if number not in self._threads:
            table = self.setup.thread(number)
            entry = table.entry if table else 0
            self._threads[number] = ThreadCode(self._code, entry, self.setup.fetches(number))
        return self._threads[number]

    def _look_at_fetches(self, asked: Asked) -> None:
        """A confined thread only fetches from its own and read-only regions."""
        name, table = f"T{asked.budget.thread}", self.setup.thread(asked.budget.thread)
        if table is None or not table.confined:
            return
        for pc in (pc for part in asked.parts for pc in part.reached):
            owner = self.setup.region("i_regions", pc)
            if owner not in (name, "readonly"):
                raise Unknown(
                    f"{self.where(pc)}: {name} is confined and can't fetch here: the region is {owner}'s"
                )

    def _look_at_reach(self, asked: Asked, thread: ThreadCode) -> None:
        start, name = asked.begin, f"T{asked.budget.thread}"
        if thread.whole.has(start):
            return
        if asked.assumes(
            Assumption.REACHED, f"no direct jump or call of {name} leads to {start:#x}"
        ):
            return
        text = f"{self.where(start)}: {name} doesn't get here from its entry {self.where(thread.entry)}"
        if thread.jumps_anywhere:
            text += f" by direct jumps and calls; if it does by others: assume = [{Assumption.REACHED.value!r}]"
        raise Unknown(text + ": is it the right thread?")

    def _look_at_writes(self, asked: Asked) -> None:
        """A bound holds until slots, modes or regions are written."""
        for table in self.setup.threads:
            if not table.permit:
                continue
            write = self.thread(table.id).configuration_write
            if write is None:
                continue
            note = f"{self.where(write.pc)}: T{table.id} has a permit and writes slots, modes or regions"
            if not asked.assumes(Assumption.NO_CONFIGURATION_WRITES, note):
                raise Unknown(f"{note}: no bound is promised from then on")

    def stated_loops(
        self, asked: Asked, callers: Sequence[Section] = ()
    ) -> list[tuple[Section, StatedLoop]]:
        """The known facts about the loops of a section and of the functions that it calls, also by the calls of other code."""
        thread = self.thread(asked.budget.thread)
        entries = {it.entry for it in self.setup.threads}
        entries |= {it.start for it in self.program.functions} | set(thread.handlers(asked.begin))
        entries |= {
            at for it in self._code.placed if (at := self._code.jump_target(it)) is not None
        }
        inference, exits = self._inference, asked.exits
        return inference.state(asked.parts, entries, exits, thread.jumps_anywhere, callers)

    @cached_property
    def _inference(self) -> Inference:
        return Inference(self.program, self.image)

    def table_of(self, part: Section, loop: Loop) -> int | None:
        """The bound of the setup's table of a loop."""
        own = (
            it
            for it in self.setup.loops
            if it.head == loop.head and loop.last <= it.last < part.end
        )
        return next((it.bound for it in own), None)

    def look_around(self, asked: Asked) -> None:
        """The thread may fetch the words, nobody writes slots, modes or regions, the sources are those of the build, and the
        stack fits."""
        self._look_at_fetches(asked)
        self._look_at_writes(asked)
        self._look_at_sources(asked)
        self._look_at_stack(asked)

    def _look_at_loops(self, asked: Asked) -> None:
        """Each loop's table is at least what the code counts, or the marks allow."""
        for part, stated in self.stated_loops(asked):
            bound = self.table_of(part, stated.loop)
            self.look_at_loop(asked, stated, bound or 0)

    def look_at_loop(self, asked: Asked, stated: StatedLoop, bound: int) -> None:
        where, loop = self.where(stated.loop.head), stated.loop
        if stated.is_contradicted:
            raise Unknown(f"{where}: {stated.doubt}: {stated.advice}")
        by = stated.source
        if stated.bound is None:
            by = "the setup's table"
            self.assume_table(asked, stated)
        elif bound < stated.bound:
            raise Unknown(
                f"{where}: {by}, which is bound = {stated.bound}; the setup's table has {bound}"
            )
        asked.loops.append(LoopFact(where, loop.head, loop.last, bound, by))

    def assume_table(self, asked: Asked, stated: StatedLoop) -> None:
        """A loop that neither code nor marks bound: its table is taken for granted, or the budget is unknown."""
        note = f"{self.where(stated.loop.head)}: only the setup's table bounds this loop ({stated.doubt})"
        if not asked.assumes(Assumption.LOOP_TABLES, note):
            raise Unknown(
                f"{note}: {stated.advice}, or assume = [{Assumption.LOOP_TABLES.value!r}]"
            )

    def _look_at_traps(self, asked: Asked, thread: ThreadCode) -> None:
        """No bound counts a trap handler, so a trap may not come back."""
        expiry = thread.expiry
        armed = f"{self.where(expiry.pc)}: an EE" if expiry else ""
        words = [word for part in asked.parts for word in part.reached.values()]
        if expiry is None and not any(word.may_trap for word in words):
            return
        ways = sorted(
            thread.comes_back(asked.section, asked.begin), key=lambda way: not way.is_meant
        )
        if not ways or not ways[0].is_meant:
            asked.notes += [f"assumes {it}" for it in self.trusted_handlers(thread)]
        if not ways:
            if expiry:
                asked.notes.append(f"{armed}; the bound ends where its moment expires")
            return
        note = f"{self.where(ways[0].word.pc)}: {ways[0].how}" + (f"; {armed}" if armed else "")
        if not ways[0].is_meant:
            asked.notes.append(f"nothing sets mtvec: it is of executions without a trap ({note})")
        elif not asked.assumes(Assumption.NO_TRAPS, f"it is of executions without a trap ({note})"):
            helps = (
                f"if executions without a trap are meant: assume = [{Assumption.NO_TRAPS.value!r}]"
            )
            raise Unknown(f"{note}: no bound counts a trap handler; {helps}")

    def trusted_handlers(self, thread: ThreadCode) -> list[str]:
        """What is assumed of the values that mtvec gets."""
        text = "no jump by a register leads between the words that set mtvec"
        return [f"{text} ({self.where(it.pc)})" for it in thread.trusted_handlers]

    def _look_at_moved_work(self, asked: Asked, thread: ThreadCode) -> None:
        """Work between the marks of a section is done in it: else there is a warning. Without lines nothing tells, but
        where nothing is outside of the section to which work may move."""
        begin, end = self._mark(asked.budget.start), self._mark(asked.budget.end)
        if begin is None or end is None or self.is_of_function:
            return
        section, entry = asked.section, thread.entry
        try:
            moved = moved_word(section, self._code, self.program, self.sources, entry, (begin, end))
        except NoLines as why:
            note = f"nothing tells whether work was moved out of the section: {why}"
            if not asked.assumes(Assumption.MOVED_WORK, note):
                raise Unknown(f"{note}, or assume = [{Assumption.MOVED_WORK.value!r}]") from why
            return
        except NotKnown as why:
            asked.notes.append(f"nothing tells whether work was moved out of the section: {why}")
            return
        if moved is not None and Assumption.MOVED_WORK not in asked.budget.assume:
            place = "it comes of a line between the marks, and is done outside of the section"
            asked.notes.append(f"{self.where(moved)}: {place}: {KEEP}")

    def _mark(self, value: int | str) -> str | None:
        """The name of a mark; of a number, that of a label there. None where no label is there."""
        if isinstance(value, str) and not value[:1].isdigit():
            return value
        at, functions = self._address(value), {it.name for it in self.program.functions}
        return next(
            (name for pc, name in self.program.symbols if pc == at and name not in functions), None
        )

    def _look_at_sources(self, asked: Asked) -> None:
        """Lines and comments are of the sources that the executable was built from."""
        note = self.other_source
        if note and not asked.assumes(Assumption.SAME_SOURCES, note):
            raise Unknown(
                f"{note}: build it again by `make`, or assume = [{Assumption.SAME_SOURCES.value!r}]"
            )

    def _look_at_stack(self, asked: Asked) -> None:
        """The thread's stack fits: a lost return address ends every bound. Where that isn't known, code that loads none holds
        with a note, and it may be taken for granted. One that is known to be too large isn't."""
        table = self.setup.thread(asked.budget.thread)
        if table is None:
            return
        stack = asked.stack = self.stacks.of(table)
        if stack.verdict is Verdict.HOLDS:
            is_noted = (
                NO_OTHER_TRAP in stack.note and Assumption.NO_TRAPS not in asked.budget.assume
            )
            asked.notes += [f"the stack: {stack.note}"] * is_noted
            return
        if stack.verdict is Verdict.OVER:
            raise Unknown(f"the stack may not fit: {stack.text}: {LESS_STACK}")
        words, note = Assumption.STACK_FITS, f"whether the stack fits is unknown: {stack.text}"
        if not asked.loads_a_return and not (stack.is_shared and self._loads_data(asked)):
            asked.notes.append(f"assumes {words.value}: {note}")
        elif not asked.assumes(words, note):
            raise Unknown(f"{note}; if it fits: assume = [{words.value!r}]")

    def _loads_data(self, asked: Asked) -> bool:
        """Whether a word of the code may load from the stack: its address isn't known to be no data."""
        bases = (self._code.value_at(it.pc, it.rs1) for it in asked.loads)
        return any(it is None or is_data(it) for it in bases)

    @cached_property
    def stacks(self) -> Stacks:
        return Stacks(self.setup, self.image, self.program)

    @property
    def other_source(self) -> str:
        """Which source isn't the one that the executable was built from; empty where there is none."""
        return self.sources.other_than(self.program)

    def _ask(self, asked: Asked) -> Answer:
        budget, section = asked.budget, asked.section
        if not budget.calls:
            return self.flexpret.bound(self.setup.path, budget.thread, section.start, section.end)
        with tempfile.TemporaryDirectory() as folder:
            listed = Path(folder) / "routines"
            lines = [f"{it.start:08x} {it.end - 4:08x}\n" for it in asked.parts[1:]]
            listed.write_text("".join(lines), encoding="ascii")
            return self.flexpret.calls(
                self.setup.path, budget.thread, section.start, section.end, listed
            )
