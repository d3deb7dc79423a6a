"""The code that a thread can reach from its entry, and the ways on after its traps."""
from __future__ import annotations

from collections import defaultdict
from dataclasses import dataclass, field
from functools import cached_property
from typing import Callable, Collection, Iterator, Mapping

from fptools.code.digraph import search
from fptools.code.returns import lost_return
from fptools.code.section import Section
from fptools.files.setup import Setup
from fptools.limits import LARGE
from fptools.isa.words import (
    CSR_MEPC,
    EBREAK,
    ECALL,
    MRET,
    OPCODE_AUIPC,
    OPCODE_IMMEDIATE,
    OPCODE_JALR,
    OPCODE_LOAD,
    OPCODE_LUI,
    OPCODES_WITHOUT_RESULT,
    RETURN,
    Flow,
    Word,
)

MOST_BEFORE = 64
CSRRW, CSRRWI = 1, 5


@dataclass
class Code:
    """The words of an image's instruction scratchpad; one that nothing places is 0, which is no instruction."""

    words: Mapping[int, int]
    entries: Collection[int] = ()
    """Where threads begin, with registers that the word before didn't give."""

    def word(self, pc: int) -> Word:
        return Word(pc, self.words.get(pc, 0))

    @cached_property
    def placed(self) -> list[Word]:
        return [Word(pc, bits) for pc, bits in sorted(self.words.items()) if pc < LARGE]

    @cached_property
    def _led_to(self) -> set[int]:
        """The addresses to which jumps lead, also those by registers with known numbers, and those that words write into
        mtvec: control comes there from elsewhere than the word before."""
        jumps = {word.target for word in self.placed if word.is_code and word.target is not None}
        found = jumps | {*self.entries}
        while True:
            numbers = (self._number(word, found) for word in self.placed)
            more = {at for at in numbers if at is not None}
            if more <= found:
                return found
            found |= more

    def _number(self, word: Word, led_to: Collection[int]) -> int | None:
        """The address that a JALR jumps to, or that a word writes into mtvec, as the code before it has it."""
        if word.pc in led_to:
            return None
        if word.opcode == OPCODE_JALR:
            base = self._value_at(word.pc, word.rs1, led_to)
            return None if base is None else (base + word.immediate) % 2**32 & ~1
        is_set = word.writes_mtvec and word.funct3 == CSRRW
        value = self._value_at(word.pc, word.rs1, led_to) if is_set else None
        return None if value is None else value & ~3

    def value_at(self, pc: int, register: int) -> int | None:
        """The number that the straight code right before a word gives a register, where it is lui, auipc and addi."""
        return self._value_at(pc, register, self._led_to)

    def _value_at(self, pc: int, register: int, led_to: Collection[int]) -> int | None:
        found = self._source_of(pc, register, led_to)
        return None if found is None else found[0]

    def _source_of(self, pc: int, register: int, led_to: Collection[int]) -> tuple[int, int] | None:
        """The number of a register by straight code, and the address of the first word that gives it."""
        if register == 0:
            return 0, pc
        added = 0
        for step in range(1, MOST_BEFORE):
            if pc - 4 * (step - 1) in led_to and step > 1:
                return None
            word = self.word(pc - 4 * step)
            if word.flow is not Flow.NEXT:
                return None
            if word.rd != register or word.opcode in OPCODES_WITHOUT_RESULT:
                continue
            if word.opcode in (OPCODE_LUI, OPCODE_AUIPC):
                base = word.pc if word.opcode == OPCODE_AUIPC else 0
                return (base + (word.field(12, 20) << 12) + added) % 2**32, word.pc
            if word.opcode != OPCODE_IMMEDIATE or word.funct3 != 0:
                return None
            added += word.immediate
            register = word.rs1
            if register == 0:
                return added % 2**32, word.pc
        return None

    def may_be_entered_between(self, word: Word) -> bool:
        """Whether a word before it gives the register of a write of mtvec its number, so that a jump may lead between."""
        found = self._source_of(word.pc, word.rs1, self._led_to)
        return word.funct3 == CSRRW and found is not None and found[1] < word.pc

    def entered_between(self, word: Word) -> int | None:
        """An address between the words that give the register of a word its number, which code or data have as a
        number: a jump by a register may lead there, with another number."""
        found = self._source_of(word.pc, word.rs1, self._led_to)
        if found is None or word.funct3 == CSRRWI:
            return None
        return next((at for at in range(found[1] + 4, word.pc + 4, 4) if at in self._taken), None)

    def is_computed(self, jump: Word) -> bool:
        """Whether the straight code before a jump computes the register by which it goes, or the jump adds to it."""
        register = jump.rs1
        for step in range(1, MOST_BEFORE):
            word = self.word(jump.pc - 4 * step)
            if word.flow is not Flow.NEXT or word.next in self._led_to:
                break
            if word.rd != register or word.opcode in OPCODES_WITHOUT_RESULT:
                continue
            if word.opcode != OPCODE_IMMEDIATE or word.funct3 != 0 or word.immediate != 0:
                return word.opcode != OPCODE_LOAD
            register = word.rs1
        return jump.opcode == OPCODE_JALR and jump.immediate != 0

    @cached_property
    def _taken(self) -> set[int]:
        """The numbers that jumps by a register may come from: words of the image, and what code computes of LUI and AUIPC."""
        found = {bits & ~1 for bits in self.words.values()}
        for word in self.placed:
            if word.is_code and word.opcode in (OPCODE_IMMEDIATE, OPCODE_JALR):
                value = self.value_at(word.pc, word.rs1) if word.rs1 else None
                if value is not None:
                    found.add((value + word.immediate) % 2**32 & ~1)
        return found

    def skips_a_word(self, word: Word) -> bool:
        """Whether a write of mepc makes it the address behind the one that it was, or leaves it, by the code before."""
        added, register = 0, word.rs1
        for step in range(1, MOST_BEFORE):
            before = self.word(word.pc - 4 * step)
            if before.flow is not Flow.NEXT or before.next in self._led_to:
                return False
            if before.opcode in OPCODES_WITHOUT_RESULT or before.rd != register:
                continue
            if before.csr == CSR_MEPC and not before.writes_csr:
                return word.funct3 == CSRRW and added in (0, 4)
            if before.opcode != OPCODE_IMMEDIATE or before.funct3 != 0:
                return False
            added, register = added + before.immediate, before.rs1
        return False

    def jump_target(self, word: Word) -> int | None:
        """Where a JALR leads, if the straight code before it gives its register a number."""
        return self._number(word, self._led_to) if word.opcode == OPCODE_JALR else None

    def new_mtvec(self, word: Word) -> int | None:
        """The address that a write of mtvec sets, if it is a number by the straight code before it."""
        if word.funct3 == CSRRWI:
            return word.rs1 & ~3
        return self._number(word, self._led_to) if word.funct3 == CSRRW else None


def entries_of(setup: Setup) -> frozenset[int]:
    """Where the threads of a setup begin."""
    return frozenset(it.entry for it in setup.threads)


@dataclass
class Reach:
    """The words that control can get to from an address, where calls come back."""

    words: dict[int, Word] = field(default_factory=dict)
    # Jumps to addresses that aren't known: through registers, but for `ret` and MRET.
    pointers: list[Word] = field(default_factory=list)

    def has(self, address: int) -> bool:
        return address in self.words


def reach(
    code: Code, starts: Collection[int], stops: Collection[int] = (), into_calls: bool = True
) -> Reach:
    """What is reached from some addresses without going on from `stops`, into called functions or past them alone."""
    found, onward = Reach(), defaultdict[int, list[int]](list)
    for pc in search(starts, onward.__getitem__, stops):
        if pc >= LARGE:
            continue
        word = found.words[pc] = code.word(pc)
        target = word.target if word.flow is not Flow.INDIRECT else code.jump_target(word)
        if word.flow is Flow.INDIRECT and target is None and word.bits not in (RETURN, MRET):
            found.pointers.append(word)
        # A trap handler may go on behind an ECALL or EBREAK.
        if word.goes_on or word.bits in (ECALL, EBREAK):
            onward[pc] = [word.next]
        if target is not None and (into_calls or not word.is_call) and word.bits != RETURN:
            onward[pc].append(target)
    return found


def anywhere(_: int) -> bool:
    """That a thread may fetch each word."""
    return True


@dataclass
class ThreadCode:
    """The code that a thread may run from its entry on, with its trap handlers."""

    code: Code
    entry: int
    may_fetch: Callable[[int], bool] = anywhere

    @cached_property
    def without_traps(self) -> Reach:
        """Only from the entry."""
        return reach(self.code, [self.entry])

    @cached_property
    def whole(self) -> Reach:
        """From the entry, from each address that a reached word writes into mtvec, and from address 0, where a trap that is
        meant may go before that."""
        found = self._with_handlers({self.entry})
        sets = [word.pc for word in found.words.values() if word.writes_mtvec]
        unset = reach(self.code, [self.entry], sets).words.values()
        return (
            self._with_handlers({self.entry, 0})
            if any(it.traps_by_intent for it in unset)
            else found
        )

    def _with_handlers(self, starts: set[int]) -> Reach:
        """From some addresses, and from each one that a reached word writes into mtvec."""
        while True:
            found = reach(self.code, starts)
            handlers = {
                at for word in found.words.values() if (at := self._handler(word)) is not None
            }
            if handlers <= starts:
                return found
            starts |= handlers

    def _handler(self, word: Word) -> int | None:
        return self.code.new_mtvec(word) if word.writes_mtvec else None

    @cached_property
    def sets_mtvec(self) -> list[Word]:
        """The words that write mtvec: of the image, where a jump may lead anywhere."""
        words = self.may_issue if self.jumps_anywhere else self.whole.words.values()
        return [word for word in words if word.writes_mtvec]

    @cached_property
    def jumps_anywhere(self) -> bool:
        """Whether it may jump to an address that isn't known: by a register, by a `ret` that may not go back to its call,
        by MRET outside of a trap handler, or by a handler that goes on elsewhere than where the trap was or at the word
        behind it."""
        return self._jumps_from(self.whole)

    def _jumps_from(self, found: Reach) -> bool:
        if found.pointers or any(word.bits == MRET for word in self.without_traps.words.values()):
            return True
        if any(
            word.writes_mepc and not self.code.skips_a_word(word) for word in found.words.values()
        ):
            return True
        return lost_return(self.code.words, found.words.values(), self.entry) is not None

    @property
    def may_issue(self) -> list[Word]:
        """What it may issue, by address: each word of the image that it may fetch, where a jump may lead anywhere."""
        return self._fetched if self.jumps_anywhere else _by_address(self.whole)

    @cached_property
    def _fetched(self) -> list[Word]:
        return [word for word in self.code.placed if self.may_fetch(word.pc)]

    @cached_property
    def configuration_write(self) -> Word | None:
        """The first write of slots, modes or regions that it may issue. A trap may go to address 0, while nothing has set
        mtvec, and anywhere, where mtvec is set to an address that isn't known."""
        found = self._with_handlers({self.entry, 0})
        sets = (word for word in found.words.values() if word.writes_mtvec)
        is_anywhere = self._jumps_from(found) or any(self._handler(word) is None for word in sets)
        words = self._fetched if is_anywhere else _by_address(found)
        return next((it for it in words if it.writes_configuration), None)

    @property
    def expiry(self) -> Word | None:
        """The first EE among them."""
        return next((word for word in self.may_issue if word.arms), None)

    def handlers(self, start: int) -> list[int]:
        """Where traps of a section may go that begins at an address: to each value of mtvec, and to 0 if it can be
        reached before mtvec is set."""
        values = {at for word in self.sets_mtvec if (at := self._handler(word)) is not None}
        return sorted(values | ({0} if self.is_unset(start) else set()))

    def is_unset(self, start: int) -> bool:
        """Whether an address can be reached before mtvec is set, so that traps go to address 0."""
        set_by = {word.pc for word in self.sets_mtvec}
        return not set_by or start in set_by or reach(self.code, [self.entry], set_by).has(start)

    def comes_back(self, section: Section, begin: int) -> Iterator[WayBack]:
        """Why a trap in a section, or in the functions that it calls, may be followed by a word of theirs. A handler that
        leads to where the section begins is the begin of another execution."""
        yield from self._unknown_handlers()
        for handler in self.handlers(begin):
            own = reach(self.code, [handler], [begin], into_calls=False)
            called = reach(self.code, [handler], [begin])
            is_meant = handler != 0 or bool(self.sets_mtvec) or self.expiry is not None
            yield from self._ways_back(handler, own, called, is_meant)
            for word in called.words.values():
                if section.holds(word.pc) or word.pc == section.end:
                    yield WayBack(word, f"the trap handler at {handler:#x} leads here")

    def _unknown_handlers(self) -> Iterator[WayBack]:
        for word in self.sets_mtvec:
            if self._handler(word) is None:
                yield WayBack(
                    word, "sets mtvec to an address that isn't known here, so a trap may come back"
                )
            elif self.jumps_anywhere and word.funct3 == CSRRW:
                yield from self._unsure_handler(word)

    @cached_property
    def trusted_handlers(self) -> list[Word]:
        """The words that set mtvec whose number rests on the words right before them, where a jump by a register may lead
        between: nothing in the image shows that one does, and nothing shows that none does."""
        if not self.jumps_anywhere:
            return []
        return [it for it in self.sets_mtvec if self.code.may_be_entered_between(it)]

    def _unsure_handler(self, word: Word) -> Iterator[WayBack]:
        """Why a write of mtvec may set another address than the words before it give."""
        between = self.code.entered_between(word)
        if self._stray is not None:
            how = f"where this leads to isn't known: if to {word.pc:#x}, another address is set as mtvec, and a trap may come back"
            yield WayBack(self._stray, how)
        elif between is not None:
            how = f"a jump by a register may lead to {between:#x}: then this sets mtvec to another address, and a trap may come back"
            yield WayBack(word, how)

    @cached_property
    def _stray(self) -> Word | None:
        """A jump that may lead to any word: a `ret` that may not go back to its call, or a jump to a computed address."""
        found = self.whole
        lost = lost_return(self.code.words, found.words.values(), self.entry)
        return lost or next((it for it in found.pointers if self.code.is_computed(it)), None)

    def _ways_back(
        self, handler: int, own: Reach, called: Reach, is_meant: bool
    ) -> Iterator[WayBack]:
        yield from _ways_back(handler, own, called, is_meant)
        lost = lost_return(self.code.words, called.words.values())
        if lost is not None:
            how = f"the trap handler at {handler:#x} calls this, and it isn't certain that it goes back to the call"
            yield WayBack(lost, how, is_meant)

    def comes_back_to(self, words: Collection[int]) -> Iterator[WayBack]:
        """Why a trap may be followed by one of some words, by their addresses, wherever it is taken."""
        yield from self._unknown_handlers()
        for handler in sorted({it for pc in words for it in self.handlers(pc)}):
            own, called = reach(self.code, [handler], into_calls=False), reach(self.code, [handler])
            is_meant = handler != 0 or bool(self.sets_mtvec) or self.expiry is not None
            yield from self._ways_back(handler, own, called, is_meant)
            entered = sorted(called.words.keys() & set(words))
            if entered:
                # Where nobody sets mtvec, a trap of a thread that begins at 0 is a fault, by which it begins again.
                is_restart = not is_meant and self.entry == handler
                how = f"the trap handler at {handler:#x} leads here"
                yield WayBack(called.words[entered[0]], how, not is_restart)


def _by_address(found: Reach) -> list[Word]:
    return [word for _, word in sorted(found.words.items())]


@dataclass(frozen=True)
class WayBack:
    """A word by which a trap comes back, and how."""

    word: Word
    how: str
    # False for a `ret` of code at address 0 that nobody made a handler: a trap is a fault of the program.
    is_meant: bool = True


def _ways_back(handler: int, own: Reach, called: Reach, is_meant: bool) -> Iterator[WayBack]:
    """How a handler may go on elsewhere, by its own words and those of what it calls."""
    for word in called.words.values():
        if word.bits == MRET:
            yield WayBack(word, "MRET goes on where a trap was")
    for word in called.pointers:
        yield WayBack(
            word, f"the trap handler at {handler:#x} jumps to an address that isn't known here"
        )
    for word in own.words.values():
        if word.bits == RETURN:
            yield WayBack(word, f"the trap handler at {handler:#x} returns", is_meant)
