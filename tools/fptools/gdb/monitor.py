"""The commands of `monitor` in gdb: cycles, the pipeline, bounds, and times of the threads."""
from __future__ import annotations

import re
from dataclasses import dataclass
from importlib.util import find_spec
from typing import Callable, Iterator, Sequence

from fptools.budget.bounds import called_functions, with_bound
from fptools.isa.disassembly import Disassembler, find_tool
from fptools.files.dump import STAGES, THREADS, Turn
from fptools.files.elf import Program, ProgramError
from fptools.gdb.machine import Machine
from fptools.gdb.state import SHOWN_LATER
from fptools.program.refusals import FAULTS, Context, explain
from fptools.code.section import walk
from fptools.visits.seen import Watched

NO_TABLE = "UnboundedBackEdge"
CYCLE = re.compile("[0-9]{1,20}")
HELP = """\
monitor cycle         the cycle in which the machine stands
monitor cycle N       the next `continue` goes to cycle N, forwards or backwards, and stops there
monitor time          the time, and each thread's mode, slots, sleep and armed moment
monitor pipeline      the five stages in this cycle
monitor bound A B     the bound of the section from A to before B: numbers, or names with --elf
monitor help          this text"""


class Misuse(Exception):
    """A command isn't one of `monitor help`; the message is for the user."""


@dataclass
class Monitor:
    """The commands for a machine, and the names that its addresses have."""

    machine: Machine
    program: Program

    def __post_init__(self) -> None:
        self._disassembler = Disassembler(find_tool())

    def answer(self, text: str, thread: int) -> str:
        """The output of a command. A fault of it is there too."""
        name, *words = text.split() or ["help"]
        commands: dict[str, Callable[[Sequence[str], int], Iterator[str]]] = {
            "help": self._help,
            "cycle": self._cycle,
            "time": self._time,
            "pipeline": self._pipeline,
            "bound": self._bound,
        }
        try:
            if name not in commands:
                raise Misuse(f"no command {name!r}: monitor help lists them")
            return "".join(f"{line}\n" for line in commands[name](words, thread))
        except (Misuse, ProgramError) as fault:
            return f"monitor {name}: {fault}\n"

    def _help(self, words: Sequence[str], thread: int) -> Iterator[str]:
        yield HELP

    def _cycle(self, words: Sequence[str], thread: int) -> Iterator[str]:
        if len(words) > 1 or words and not CYCLE.fullmatch(words[0]):
            raise Misuse("takes one decimal number, as 1000")
        if words and int(words[0]) > self.machine.end:
            raise Misuse(
                f"this run ends at cycle {self.machine.end}; --cycles of fp_gdb is another end"
            )
        yield self._head()
        if words:
            self.machine.goal = int(words[0])
            yield f"continue goes to cycle {self.machine.goal}"

    def _head(self) -> str:
        return f"cycle {self.machine.now}, {self.machine.time} ns"

    def _time(self, words: Sequence[str], thread: int) -> Iterator[str]:
        yield f"{self._head()}; the run ends at cycle {self.machine.end}"
        dump = self.machine.runs.dump(self.machine.now + SHOWN_LATER)
        for number in range(THREADS):
            armed = dump.threads[number].armed
            text = "" if armed is None else f", deadline armed for {self._moment(armed)}"
            yield f"T{number} {self.machine.described(number)}{text}"

    def _moment(self, moment: int) -> str:
        return f"{moment} ns (cycle {-(-moment // self.machine.period)})"

    def _pipeline(self, words: Sequence[str], thread: int) -> Iterator[str]:
        """The stages F to W. In F is the thread that was picked, with its issue if it has one."""
        yield self._head()
        dump = self.machine.runs.dump(self.machine.now + 1)
        ahead = None if dump.fetching is None else self.machine.next_event(dump.fetching)
        is_now = ahead is not None and ahead.cycle == self.machine.now
        fetch = (
            Turn(dump.fetching, ahead.pc, ahead.bits) if ahead and is_now else Turn(dump.fetching)
        )
        for stage, turn in (("F", fetch), *((stage, dump.stages[stage]) for stage in STAGES)):
            yield f"{stage} {self._turn(turn)}".rstrip()

    def _turn(self, turn: Turn) -> str:
        if turn.thread is None:
            return "-"
        if turn.pc is None or turn.bits is None:
            return f"T{turn.thread} no issue"
        text = self._disassembler.text(turn.pc, turn.bits)
        return f"T{turn.thread} {turn.pc:08x} {self.program.name_of(turn.pc):<24} {text}"

    def _explained(self, refusal: str, thread: int) -> list[str]:
        """The explanation of a refusal by fp_refusal; nothing for other reasons."""
        try:
            return explain(
                refusal, Context(self.machine.runs.setup, None, self.program, None, thread)
            )
        except FAULTS:
            return []

    def _bound_without_tables(
        self, watched: Watched, words: Sequence[str], thread: int
    ) -> Iterator[str]:
        """The bound of a section with loops that the setup has no table for: the executable bounds
        them, as for fp_budget. What fp_budget would refuse for other reasons is a note."""
        if find_spec("jsonschema") is None:
            text = (
                f"T{thread} has no bound there: no [[loop]] of the setup states a loop of it, and"
            )
            raise Misuse(f"{text} python3-jsonschema isn't installed, by which fp_budget bounds it")
        from fptools.budget.judge import Assumption, Budget, Judge, Verdict
        from fptools.files.image import read_image
        from fptools.budget.results import judged
        from fptools.files.setup import read_setup

        runs = self.machine.runs
        setup = read_setup(runs.setup)
        judge = Judge(runs.flexpret, setup, read_image(setup.image), self.program)
        assume = frozenset(Assumption) - {Assumption.LOOP_TABLES, Assumption.STACK_FITS}
        start, end = words
        budget = Budget(watched.name, thread, start, end, None, True, assume=assume)
        found = judged(judge, budget)
        if found.verdict is not Verdict.HOLDS:
            raise Misuse(f"T{thread} has no bound there: {found.text}")
        yield f"T{thread} {watched.name}: bound {found.text}"
        yield from (f"  loop {it}" for it in found.loops)
        yield from (f"  note: {it}" for it in found.notes)

    def _bound(self, words: Sequence[str], thread: int) -> Iterator[str]:
        if len(words) != 2:
            raise Misuse("takes two addresses: the first of the section, and the first behind it")
        start, end = (self.program.address(word) for word in words)
        if start >= end or start % 4 or end % 4:
            raise Misuse("the second address isn't above the first, or one is no multiple of 4")
        code, functions = self.machine.code, self.program.functions
        called = [(it.start, it.end) for it in called_functions(code, functions, start, end)]
        watched = Watched(f"{words[0]} to {words[1]}", start, end, routines=tuple(called))
        runs = self.machine.runs
        asked = with_bound(runs.flexpret, runs.setup, thread, watched, code, functions)
        if asked.bound is None and NO_TABLE in asked.doubt and self.program.path is not None:
            yield from self._bound_without_tables(watched, words, thread)
            return
        if asked.bound is None:
            told = f"T{thread} has no bound there: {asked.doubt}"
            raise Misuse("\n".join([told, *self._explained(asked.doubt, thread)]))
        time = asked.bound * self.machine.period
        yield f"T{thread} {watched.name}: bound {asked.bound} cycles ({time} ns)"
        for way in walk(code, start, end, [head for head, _ in called]).ways_out:
            if way.to != end:
                name = self.program.name_of(way.word.pc)
                yield f"  it ends at {way.word.pc:#x} {name}, where the section is left"
