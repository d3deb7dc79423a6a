"""What the code shows of the moments of waits: how far each is behind the one before, or behind a
reading of the time.

Only words of memory in regions that are the thread's own are followed, as no other thread stores
there."""
from __future__ import annotations

from dataclasses import dataclass, field, replace
from functools import cached_property
from typing import Mapping

from fptools.code.kept import STACK_POINTER, WORD_SIZE, Called, Effects

from fptools.period.branch_values import forms

from fptools.period.moment_values import (
    LOW, Behind, High, Linear, LowOf, Moment, Rebase, moment_of, number, number_of,
    range_of_value, result_of,
)  # fmt: skip
from fptools.period.solver import Left, Solver, left_at
from fptools.period.states import Kept, State
from fptools.files.setup import Setup
from fptools.limits import DATA_START, LARGE
from fptools.code.unfolded import Place, Step, Unfolded, is_wait
from fptools.code.values import written_by
from fptools.isa.words import OPCODE_BRANCH, OPCODE_LOAD, OPCODE_STORE, OPCODE_TIMING, Flow, Word

GET_LOW, GET_HIGH = 0, 1  # funct3 of GT and GTH
SAVED = frozenset({1, 8, 9, *range(18, 28)})  # the registers that functions give back, and x1
MOST_STORED = 16_384  # bytes in which a store may be, to be followed


@dataclass
class Moments:
    """The values of a thread's registers and own memory, along the places that it reaches."""

    unfolded: Unfolded
    setup: Setup
    thread: int
    image: Mapping[int, int]
    called: Called
    _loads: set[int] = field(default_factory=set)  # the addresses of the thread's own words

    def behind(self, begin: Place) -> dict[Place, Moment]:
        """The moment of each next wait behind a wait, or behind the entry, as the code shows it."""
        step = self.unfolded.steps[begin]
        if is_wait(step.word):
            starts = {it: self._rebased(begin, step) for it in step.ends}
            states = self._states(starts, True, self._left)
        else:
            states = self._states({begin: self._first}, True)
        waits = ((it, self.unfolded.steps[it].word) for it in states)
        return {it: self._moment(states[it], word) for it, word in waits if is_wait(word)}

    @staticmethod
    def _moment(state: State, word: Word) -> Moment:
        """The moment of a wait."""
        low = state.registers[word.rs2]
        highs = forms(state.registers[word.rs1], state.facts.carries)
        found = [moment_of(it, low) for it in highs]
        return next((it for it in found if isinstance(it, Behind)), found[0])

    def at(self, wait: Place) -> Moment:
        """The moment of a wait, as all paths to it from the entry have it."""
        return self._moment(self._from_entry[wait], self.unfolded.steps[wait].word)

    @cached_property
    def _from_entry(self) -> dict[Place, State]:
        return self._states({self.unfolded.first: self._first}, False)

    @cached_property
    def _first(self) -> State:
        """The reset: all registers are 0, and memory is what the image has. Of it, the words count
        that the code loads."""
        reset = State((number(0),) * 32, number(0))
        self._states({self.unfolded.first: reset}, False)
        words = {at: Kept(number(self.image.get(at, 0)), False) for at in sorted(self._loads)}
        return replace(reset, memory=words)

    def _rebased(self, begin: Place, step: Step) -> State:
        """What is known behind a wait, as distances from its moment."""
        state = self._from_entry[begin]
        high, low = state.registers[step.word.rs1], state.registers[step.word.rs2]
        change = Rebase(high, low).change
        memory = {at: Kept(change(it.value), it.is_saved) for at, it in state.memory.items()}
        return State(tuple(map(change, state.registers)), change(state.latch), memory)

    def _states(
        self,
        starts: Mapping[Place, State],
        ends_at_waits: bool,
        earlier: Mapping[Place, Left] | None = None,
    ) -> dict[Place, State]:
        """What is known before each place, from some on."""
        return Solver(self.unfolded, starts, self._after, ends_at_waits, earlier or {}).before

    @cached_property
    def _left(self) -> dict[Place, Left]:
        """The branches that leave loops, by which it is known how often these have gone back."""
        found = {}
        for place, state in self._from_entry.items():
            step = self.unfolded.steps[place]
            if step.word.flow is Flow.BRANCH and step.onward != step.target:
                for to in step.ends:
                    left = left_at(self.unfolded, place, step, to, state)
                    if left is not None:
                        found[place] = left
        return found

    def _after(self, place: Place, step: Step, state: State) -> State:
        """What is known behind a word."""
        word = step.word
        if step.passes_over:
            return self._behind_call(place, word, state)
        if word.flow in (Flow.CALL, Flow.JUMP):
            return state.with_register(word.rd, number(word.next))
        if word.opcode == OPCODE_STORE:
            return self._stored(place, word, state)
        if word.opcode == OPCODE_LOAD:
            return self._loaded(place, word, state)
        if word.opcode == OPCODE_TIMING and word.funct3 == GET_LOW:
            state = replace(state, latch=High(place))
            return state.with_register(word.rd, Linear(LowOf(place)))
        if word.opcode == OPCODE_TIMING and word.funct3 == GET_HIGH:
            return state.with_register(word.rd, state.latch)
        if word.opcode in (OPCODE_BRANCH, OPCODE_TIMING) or word.flow is not Flow.NEXT:
            return state
        return state.with_register(word.rd, result_of(place, word, state.registers))

    def _behind_call(self, place: Place, word: Word, state: State) -> State:
        effects = self.called.effects(word.target or 0)
        gone = effects.registers | {word.rd}
        registers = tuple(
            Linear((place, at)) if at in gone and at else it
            for at, it in enumerate(state.registers)
        )
        memory = self._memory_behind_call(effects, state)
        latch = Linear((place, "latch")) if effects.reads_time else state.latch
        return State(registers, latch, memory)

    @staticmethod
    def _memory_behind_call(effects: Effects, state: State) -> dict[int, Kept]:
        """What is known of the memory once a function has come back."""
        stack = number_of(state.registers[STACK_POINTER])
        if stack is None and effects.lowest < 0:
            return {}
        frames = range((stack or 0) + effects.lowest, stack or 0)
        return {
            at: it
            for at, it in state.memory.items()
            if at not in effects.words
            and at not in frames
            and (it.is_saved or not effects.stores_anywhere)
        }

    @staticmethod
    def _address(word: Word, state: State) -> int | None:
        """The address of a load or store, if it is a number."""
        base = number_of(state.registers[word.rs1])
        distance = word.store_offset if word.opcode == OPCODE_STORE else word.immediate
        return None if base is None else (base + distance) % LOW

    def _owner(self, at: int) -> str:
        """Whose a word of the data scratchpad is; empty for what is none."""
        is_data = DATA_START <= at < DATA_START + self.setup.size
        return self.setup.region("d_regions", at) if is_data else ""

    def _loaded(self, place: Place, word: Word, state: State) -> State:
        at, fresh = self._address(word, state), result_of(place, word, state.registers)
        if at is None or word.funct3 != WORD_SIZE or at % 4:
            return state.with_register(word.rd, fresh)
        if at < LARGE or self._owner(at) == "readonly":
            return state.with_register(word.rd, number(self.image.get(at, 0)))
        if self._owner(at) != f"T{self.thread}":
            return state.with_register(word.rd, fresh)
        self._loads.add(at)
        kept = state.memory.get(at)
        if kept is None:
            state = replace(state, memory={**state.memory, at: Kept(fresh, False)})
        return state.with_register(word.rd, fresh if kept is None else kept.value)

    def _stored(self, place: Place, word: Word, state: State) -> State:
        at, value = self._address(word, state), state.registers[word.rs2]
        if at is None:
            return self._stored_within(word, state)
        if self._owner(at) != f"T{self.thread}":
            return state
        memory = {to: it for to, it in state.memory.items() if to != at & ~3}
        if word.funct3 == WORD_SIZE and at % 4 == 0:
            memory[at] = Kept(value, self._saves(place, word))
        return replace(state, memory=memory)

    @staticmethod
    def _stored_within(word: Word, state: State) -> State:
        """What is known behind a store to an address of which at most a range is known."""
        at = range_of_value(state.registers[word.rs1]).plus(word.store_offset)
        is_near = at.last - at.first < MOST_STORED
        memory = {
            to: it
            for to, it in state.memory.items()
            if (not at.first & ~3 <= to <= at.last if is_near else it.is_saved)
        }
        return replace(state, memory=memory)

    def _saves(self, place: Place, word: Word) -> bool:
        """Whether a store keeps a register for the caller: on the stack, in the straight code at the
        function's begin, which doesn't change the register before."""
        if not place.sites or word.rs1 != STACK_POINTER or word.rs2 not in SAVED:
            return False
        code = self.unfolded.code
        first = code.word(place.sites[-1]).target or 0
        before = [code.word(pc) for pc in range(first, place.pc, 4)]
        is_straight = all(it.flow is Flow.NEXT for it in before)
        return (
            first <= place.pc and is_straight and all(written_by(it) != word.rs2 for it in before)
        )
