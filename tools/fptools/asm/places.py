"""Where the lines of a source place words, and which words: the two passes of the assembler."""

from collections.abc import Sequence
from dataclasses import dataclass, field
from functools import cached_property

from fptools.asm.statements import FIXED, OPERANDS, SHORT, Operand, operands_of
from fptools.asm.tokens import LineFault, SourceNo, Token, lines_of, tokens
from fptools.isa.encodings import BY_NAME
from fptools.limits import DATA_START, SMALL

LAST_WORD = 2**32 - 1
RANGES = {
    "i": (-2048, 2047), "o": (-2048, 2047), "h": (0, 31), "z": (0, 31), "u": (0, (1 << 20) - 1), "c": (0, 4095),
    "b": (-4096, 4094), "j": (-(1 << 20), (1 << 20) - 2),
}  # fmt: skip
"""The least and the largest number of an operand, by its letter in isa.encodings; of a branch or jump, that of the bytes to its target."""


class SourceFault(Exception):
    """The first fault of a source, with its line from 1 on; 0 for the whole source."""

    def __init__(self, line: int, code: SourceNo) -> None:
        super().__init__(line, code)
        self.line, self.code = line, code


def signed(value: int) -> int:
    """A word as a number with a sign."""
    return (value + 2**31) % 2**32 - 2**31


def within(number: int, low: int, high: int) -> int:
    if not low <= number <= high:
        raise LineFault(SourceNo.OutOfRange)
    return number


def _upper(number: int) -> int:
    """The upper 20 bits of a number that a lower part of 12 bits with a sign completes."""
    return (number + 2048) % 2**32 >> 12


def _load_word(rd: int, number: int, is_short: bool) -> list[int]:
    """The words of `li` and `la`; `li` leaves out what adds nothing."""
    value = signed(number)
    lui, addi = BY_NAME["lui"], BY_NAME["addi"]
    if is_short and -2048 <= value <= 2047:
        return [addi.word(rd, 0, value)]
    low = [] if is_short and value % 4096 == 0 else [addi.word(rd, rd, value)]
    return [lui.word(rd, _upper(number)), *low]


@dataclass
class Line:
    """A mnemonic with its operands at a location."""

    number: int
    name: str
    operands: list[Operand]
    at: int

    def count(self) -> int:
        """The number of words that the line places."""
        first = self.operands[0].number if self.operands else 0
        if self.name in (".org", ".space"):
            within(first, 0, SMALL if self.name == ".space" else LAST_WORD - 3)
            if first % 4:
                raise LineFault(SourceNo.Misaligned)
            return first // 4 if self.name == ".space" else 0
        if self.name == "li":
            return len(
                _load_word(first, within(self.operands[1].number, -(1 << 31), LAST_WORD), True)
            )
        return {".word": len(self.operands), "la": 2}.get(self.name, 1)

    def addresses(self) -> list[int]:
        return [(self.at + 4 * k) % 2**32 for k in range(self.count())]

    def words(self, labels: dict[str, int]) -> list[int]:
        """The words of the line. An undefined label is reported before its other faults."""
        for operand in self.operands:
            if operand.label is not None and operand.label not in labels:
                raise LineFault(SourceNo.NoLabel)
        if self.name == ".org":
            return []
        if self.name == ".space":
            return [0] * (self.operands[0].number // 4)
        if self.name == ".word":
            return [self._full(operand, labels) for operand in self.operands]
        if self.name in ("li", "la"):
            rd, number = self.operands
            return _load_word(rd.number, self._full(number, labels), self.name == "li")
        return [FIXED.get(self.name) or self._instruction(labels)]

    def _full(self, operand: Operand, labels: dict[str, int]) -> int:
        """A word: any address, or a number of 32 bits, with a sign or without."""
        if operand.label is None:
            within(operand.number, -(1 << 31), LAST_WORD)
        return address_of(operand, labels)

    def _instruction(self, labels: dict[str, int]) -> int:
        name, letters, _ = SHORT.get(self.name) or (
            self.name,
            " ".join(BY_NAME[self.name].operands),
            "",
        )
        form, operands, values = BY_NAME[name], iter(self.operands), dict[str, int]()
        for letter in letters.split():
            if "=" in letter:
                values[letter[0]] = int(letter[2:])
            elif letter == "s" and form.operands in ("dis", "tos") and self.name == name:
                continue  # the base is part of the operand before
            else:
                operand = next(operands)
                values[letter] = self._value(letter, operand, labels)
                if form.operands in ("dis", "tos") and letter in "io":
                    values["s"] = operand.base
        return form.word(*(values[letter] for letter in form.operands))

    def _value(self, letter: str, operand: Operand, labels: dict[str, int]) -> int:
        """The number of an operand; of a branch or jump, the bytes to its target."""
        if letter not in "bj":
            return within(operand.number, *RANGES.get(letter, (0, 31)))
        to = address_of(operand, labels)
        number = within(signed(to - self.at), *RANGES[letter])
        if to % 4:
            raise LineFault(SourceNo.Misaligned)
        return number


def address_of(operand: Operand, labels: dict[str, int]) -> int:
    base = labels[operand.label] if operand.label is not None else 0
    return (base + operand.number) % 2**32


@dataclass
class Placer:
    """The first pass: labels, and the words that each line places."""

    labels: dict[str, int] = field(default_factory=dict)
    placed: set[int] = field(default_factory=set)
    lines: list[Line] = field(default_factory=list)
    location: int = 0

    def take(self, number: int, text: bytes) -> None:
        """Takes the next line. A fault is a `LineFault`."""
        found = tokens(text)
        at = self._take_labels(found)
        if at == len(found):
            return
        if found[at].kind != "NAME":
            raise LineFault(SourceNo.Operands)
        if found[at].text not in OPERANDS:
            raise LineFault(SourceNo.UnknownName)
        self._place(Line(number, found[at].text, operands_of(found, at), self.location))

    def _take_labels(self, found: Sequence[Token]) -> int:
        """Stores the labels at the beginning of a line, and returns the number of their tokens."""
        count = labels_in(found)
        for token in found[:count:2]:
            if token.text in self.labels:
                raise LineFault(SourceNo.DoubleLabel)
            self.labels[token.text] = self.location
        return count

    def _place(self, line: Line) -> None:
        addresses = line.addresses()
        if not all(at < SMALL or DATA_START <= at < DATA_START + SMALL for at in addresses):
            raise LineFault(SourceNo.OutsideMemory)
        if not self.placed.isdisjoint(addresses):
            raise LineFault(SourceNo.Overlap)
        self.placed.update(addresses)
        self.lines.append(line)
        end = (line.at + 4 * len(addresses)) % 2**32
        self.location = line.operands[0].number if line.name == ".org" else end


def labels_in(found: Sequence[Token]) -> int:
    """The number of tokens of the labels at the beginning of a line."""
    at = 0
    while at + 1 < len(found) and found[at].kind == "NAME" and found[at + 1].is_mark(":"):
        at += 2
    return at


@dataclass(frozen=True)
class Label:
    """A label: its name, its address, and its line of the source."""

    name: str
    address: int
    line: int


class Placed:
    """The lines of a source and its labels, of the first pass. A fault is a `SourceFault`."""

    def __init__(self, data: bytes) -> None:
        self.texts = lines_of(data)
        self.placer = Placer()
        self.labels: list[Label] = []
        for number, text in enumerate(self.texts, 1):
            try:
                self.placer.take(number, text)
            except LineFault as fault:
                raise SourceFault(number, fault.code) from fault
            new = list(self.placer.labels.items())[len(self.labels) :]
            self.labels += [Label(name, at, number) for name, at in new]

    @cached_property
    def words(self) -> list[tuple[int, int, tuple[int, ...]]]:
        """The line, the first address and the words of each line that places some, of the second pass."""
        found = []
        for line in self.placer.lines:
            try:
                words = line.words(self.placer.labels)
            except LineFault as fault:
                raise SourceFault(line.number, fault.code) from fault
            if words:
                found.append((line.number, line.at, tuple(words)))
        return found
