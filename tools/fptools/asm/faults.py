"""The reason why the assembler refuses a source: the place in the line, the expected text, and the remedy."""

from dataclasses import dataclass, replace
from typing import Callable, Iterator

from fptools.asm.places import RANGES, Line, Placed, Placer, address_of, labels_in, signed
from fptools.asm.statements import OPERANDS, REGISTERS, SHORT, Expected, Operand, near, operands_of
from fptools.asm.tokens import MOST_TOKENS, Lex, LexFault, SourceNo, lines_of, tokens
from fptools.isa.encodings import BY_NAME
from fptools.limits import DATA_START, MOST_SEGMENTS, SMALL

MOST_BYTES = 1_048_576
"""Of a source."""

NO_SECTIONS = "a source has no sections and no options: leave the line out"
WORDS_ALONE = "data is words: .word takes numbers of 32 bits"
NO_ATOMICS = "the core has no atomic instructions"
ELSEWHERE = {
    "bgt": "bgt a, b, to is blt b, a, to", "ble": "ble a, b, to is bge b, a, to",
    "bgtu": "bgtu a, b, to is bltu b, a, to", "bleu": "bleu a, b, to is bgeu b, a, to",
    "bltz": "bltz a, to is blt a, x0, to", "bgez": "bgez a, to is bge a, x0, to",
    "bgtz": "bgtz a, to is blt x0, a, to", "blez": "blez a, to is bge x0, a, to",
    "seqz": "seqz d, a is sltiu d, a, 1", "snez": "snez d, a is sltu d, x0, a",
    "sltz": "sltz d, a is slt d, a, x0", "sgtz": "sgtz d, a is slt d, x0, a",
    "call": "call f is jal ra, f", "tail": "tail f is j f",
    "csrs": "csrs csr, a is csrrs x0, csr, a", "csrc": "csrc csr, a is csrrc x0, csr, a",
    "csrwi": "csrwi csr, n is csrrwi x0, csr, n", "csrsi": "csrsi csr, n is csrrsi x0, csr, n",
    "csrci": "csrci csr, n is csrrci x0, csr, n", "unimp": "unimp is .word 0",
    "wfi": "there is no wfi: wu sleeps until a moment",
    "rdcycle": "there is no rdcycle: gt and gth give the time",
    ".zero": ".zero n is .space n", ".skip": ".skip n is .space n",
    ".long": ".long v is .word v", ".int": ".int v is .word v",
    **dict.fromkeys((".text", ".data", ".section", ".globl", ".global", ".align", ".balign"), NO_SECTIONS),
    **dict.fromkeys((".p2align", ".option", ".type", ".size", ".file"), NO_SECTIONS),
    **dict.fromkeys((".byte", ".half", ".2byte", ".ascii", ".asciz", ".string"), WORDS_ALONE),
    **dict.fromkeys(("lr.w", "sc.w", "amoadd.w", "amoswap.w"), NO_ATOMICS),
}  # fmt: skip
"""Directives and instructions of other assemblers, each with the advice for it."""

NAMES_OF_OPERANDS = {
    "rrr": "rd, rs1, rs2", "rrn": "rd, rs1, number", "rrv": "rs1, rs2, target", "rn": "rd, number",
    "rv": "rd, target", "v": "target", "rr": "rd, rs", "r": "rd", "rc": "rd, csr", "cr": "csr, rs",
    "rcr": "rd, csr, rs", "rcn": "rd, csr, number", "n": "number", "": "",
}  # fmt: skip
OWN_OPERANDS = {
    **dict.fromkeys(("du", "wu", "ee"), "high, low"), **dict.fromkeys(("beqz", "bnez"), "rs, target"),
    **{name: "rs, offset(base)" if name.startswith("s") else "rd, offset(base)" for name, kinds in OPERANDS.items() if kinds == "rm"},
    "jr": "rs", "la": "rd, address", ".word": "value, ..",
}  # fmt: skip


@dataclass(frozen=True)
class Explanation:
    """A fault at a place of a line. Columns count from 0; none where the fault isn't at a token."""

    line: int
    text: str
    column: int | None = None
    width: int = 1
    hints: tuple[str, ...] = ()
    other: tuple[int, str] | None = None  # another line that plays a part, and how


def usage(name: str) -> str:
    """A mnemonic with its operands."""
    return f"{name} {OWN_OPERANDS.get(name) or NAMES_OF_OPERANDS[OPERANDS[name]]}".rstrip()


def _hints(*texts: str) -> tuple[str, ...]:
    return tuple(text for text in texts if text)


class _Line:
    """A line of a source, taken apart as far as it goes."""

    def __init__(self, number: int, text: bytes) -> None:
        self.number, self.text = number, text
        self.found = tokens(text)
        at = labels_in(self.found)
        self.labels, self.rest = self.found[:at:2], self.found[at:]

    @property
    def name(self) -> str:
        return self.rest[0].text if self.rest and self.rest[0].kind == "NAME" else ""

    def at(self, text: str, index: int, *hints: str, end: int | None = None) -> Explanation:
        """An explanation at some of the tokens behind the labels, or at the line's end."""
        if index >= len(self.rest):
            column = self.found[-1].end if self.found else 0
            return Explanation(self.number, text, column, 1, _hints(*hints))
        first, last = self.rest[index], self.rest[(end or index + 1) - 1]
        return Explanation(self.number, text, first.start, last.end - first.start, _hints(*hints))

    def operands(self) -> list[Operand]:
        """The operands with the places of their tokens; a fault is an `Expected`."""
        return operands_of(self.rest, 0)


def explain_source(data: bytes, line: int, code: SourceNo) -> Explanation:
    """Why a source is refused, by the line and code of the refusal."""
    if line == 0:
        return _explain_whole(data, code)
    text = lines_of(data)[line - 1]
    if code is SourceNo.Lex:
        return _explain_token(line, text)
    explain: dict[SourceNo, Callable[[_Line, bytes], Explanation]] = {
        SourceNo.UnknownName: _explain_name,
        SourceNo.Operands: _explain_operands,
        SourceNo.DoubleLabel: _explain_double,
        SourceNo.NoLabel: _explain_no_label,
        SourceNo.OutOfRange: _explain_number,
        SourceNo.Misaligned: _explain_number,
        SourceNo.OutsideMemory: _explain_outside,
        SourceNo.Overlap: _explain_overlap,
    }
    return explain[code](_Line(line, text), data)


def _explain_whole(data: bytes, code: SourceNo) -> Explanation:
    if code is SourceNo.TooLong:
        return Explanation(
            0, f"the source has {len(data)} bytes, of {MOST_BYTES} at most", hints=("cut comments",)
        )
    placed = Placed(data).placer.placed
    starts = [at for at in sorted(placed) if at - 4 not in placed]
    gap = f"the runs begin at {', '.join(f'{at:#x}' for at in starts[:MOST_SEGMENTS + 1])}"
    return Explanation(
        0,
        f"{len(starts)} runs of words with a gap between them, of {MOST_SEGMENTS} at most",
        hints=(gap, "fill small gaps by .space"),
    )


def _explain_token(line: int, text: bytes) -> Explanation:
    try:
        tokens(text)
    except LexFault as fault:
        column = fault.column
        if fault.why is Lex.TOO_MANY:
            return Explanation(
                line,
                f"more than {MOST_TOKENS} tokens in a line",
                column,
                hints=("write it as more lines",),
            )
        if fault.why is Lex.NUMBER:
            end = next(
                (
                    at
                    for at in range(column, len(text))
                    if not (text[at : at + 1].isalnum() or text[at] in b"_.")
                ),
                len(text),
            )
            hint = "a number is decimal, or 0x and hexadecimal digits, below 2^32"
            return Explanation(
                line,
                f"{text[column:end].decode('ascii', 'replace')!r} is no number",
                column,
                end - column,
                (hint,),
            )
        char = chr(text[column])
        comment = "a comment begins with #" if char in ";/@!" else ""
        label = "a target is a label, or an address" if char in "%$" else ""
        return Explanation(
            line, f"{char!r} begins no name, number or mark", column, hints=_hints(comment, label)
        )
    raise ValueError("the line has no such fault")


def _explain_name(line: _Line, _: bytes) -> Explanation:
    name = line.name
    if name.lower() in OPERANDS:
        return line.at(
            f"unknown mnemonic {name!r}", 0, f"mnemonics are in lower case: {usage(name.lower())}"
        )
    if (
        len(line.rest) > 1
        and line.rest[1].kind == "NAME"
        and len(line.rest) == 2
        and line.rest[1].text in OPERANDS
    ):
        return line.at(f"unknown mnemonic {name!r}", 0, f"a label has a colon: {name}:")
    hint = ELSEWHERE.get(name.lower()) or near(name, list(OPERANDS))
    alone = f"a label has a colon: {name}:" if len(line.rest) == 1 and not hint else ""
    return line.at(
        f"unknown {'directive' if name.startswith('.') else 'mnemonic'} {name!r}", 0, hint, alone
    )


def _explain_operands(line: _Line, _: bytes) -> Explanation:
    if not line.name:
        token = line.rest[0].text
        hint = "a label begins with a letter, _ or ." if token[:1].isdigit() else ""
        return line.at(f"expected a mnemonic or a directive, found {token!r}", 0, hint)
    try:
        line.operands()
    except Expected as fault:
        index = fault.at
        found = f"{line.rest[index].text!r}" if index < len(line.rest) else "the end of the line"
        return line.at(
            f"expected {fault.text}, found {found}",
            index,
            *fault.hints,
            f"the form is: {usage(line.name)}",
        )
    raise ValueError("the line has no such fault")


def _explain_double(line: _Line, data: bytes) -> Explanation:
    first = _labels_before(data, line.number)
    for label in line.labels:
        name = label.text
        if name in first or sum(it.text == label.text for it in line.labels) > 1:
            other = (first[name], "it is here first") if name in first else None
            return Explanation(
                line.number,
                f"the label {name!r} is there a second time",
                label.start,
                label.end - label.start,
                other=other,
            )
    raise ValueError("the line has no such fault")


def _labels_before(data: bytes, line: int) -> dict[str, int]:
    """The labels of the lines before one, with their lines."""
    found: dict[str, int] = {}
    for number, text in enumerate(lines_of(data)[: line - 1], 1):
        for label in _Line(number, text).labels:
            found.setdefault(label.text, number)
    return found


def _explain_no_label(line: _Line, data: bytes) -> Explanation:
    names = [label.name for label in Placed(data).labels]
    for place in line.operands():
        label = place.label
        if label is not None and label not in names:
            register = (
                f"{label} is a register, and an address is expected here"
                if label in REGISTERS
                else ""
            )
            return line.at(
                f"no label {label!r}", place.first, register or near(label, names), end=place.end
            )
    raise ValueError("the line has no such fault")


@dataclass(frozen=True)
class _Range:
    low: int
    high: int
    hint: str = ""


WORDS = _Range(-(1 << 31), (1 << 32) - 1)
OWN_RANGES = {
    "li": WORDS, "la": WORDS, ".word": WORDS, ".org": _Range(0, (1 << 32) - 4), ".space": _Range(0, SMALL),
}  # fmt: skip
OF_OFFSET = "la or li gives the address to a register; an offset goes from there"
REMEDIES = {
    "i": "li sets a register to any number; add the registers then",
    "o": OF_OFFSET,
    "u": "its number is the upper 20 bits; li takes the whole number",
    "b": "branch over a j with the condition turned round: bne for beq, bge for blt",
    "j": "la the address to a register, and jr",
    "h": "", "z": "",
}  # fmt: skip
"""What to do about a number that is out of its range, by its letter in isa.encodings."""


def _letter_of(name: str) -> str:
    """The letter of a mnemonic's number or target; empty without one, and for those of OWN_RANGES."""
    form = BY_NAME.get(SHORT[name][0] if name in SHORT else name)
    return next((it for it in form.operands if it in REMEDIES), "") if form else ""


def _range_of(name: str) -> _Range | None:
    """The range of a mnemonic's number."""
    letter, is_memory = _letter_of(name), OPERANDS[name] == "rm"
    if name in OWN_RANGES or not letter:
        return OWN_RANGES.get(name)
    return _Range(*RANGES[letter], OF_OFFSET if is_memory else REMEDIES[letter])


def _explain_number(line: _Line, data: bytes) -> Explanation:
    """A number, or a target, that is out of range or no multiple of 4."""
    places = line.operands()
    if _letter_of(line.name) in ("b", "j"):
        return _explain_target(line, places[-1], data)
    for place, kind in zip(places, _kinds(line.name, len(places))):
        found = _out_of_range(line.name, place, kind)
        if found is not None:
            text = f"{place.number} isn't {found.low:,} to {found.high:,}"
            return line.at(text, place.first, found.hint, end=place.end)
    place = places[0]
    return line.at(f"{place.number} is no multiple of 4", place.first, end=place.end)


def _kinds(name: str, count: int) -> str:
    return OPERANDS[name].ljust(count, OPERANDS[name][-1:])


def _out_of_range(name: str, operand: Operand, kind: str) -> _Range | None:
    is_number = kind in "nvm" and operand.label is None
    limit = _Range(0, 4095) if kind == "c" else _range_of(name) if is_number else None
    return None if limit is None or limit.low <= operand.number <= limit.high else limit


def _explain_target(line: _Line, place: Operand, data: bytes) -> Explanation:
    reach = _range_of(line.name)
    assert reach is not None
    placer = Placed(data).placer
    at = next(it.at for it in placer.lines if it.number == line.number)
    to = address_of(place, placer.labels)
    away = signed(to - at)
    if reach.low <= away <= reach.high:
        return line.at(f"{to:#x} is no multiple of 4", place.first, end=place.end)
    text = f"{to:#x} is {away:,} bytes away, and {line.name} leads {reach.low:,} to {reach.high:,}"
    address = "a number is an address here, and no distance" if place.label is None else ""
    return line.at(text, place.first, address or reach.hint, end=place.end)


def _addresses(line: _Line, data: bytes) -> tuple[list[int], dict[int, int]]:
    """Where the words of a line would lie, and the lines of the words before it, by their addresses."""
    placer = Placer()
    owners: dict[int, int] = {}
    for number, text in enumerate(lines_of(data)[: line.number - 1], 1):
        before = len(placer.lines)
        placer.take(number, text)
        for it in placer.lines[before:]:
            owners.update((at, number) for at in it.addresses())
    return Line(line.number, line.name, line.operands(), placer.location).addresses(), owners


def _explain_outside(line: _Line, data: bytes) -> Explanation:
    addresses, _ = _addresses(line, data)
    outside = next(
        at for at in addresses if not (at < SMALL or DATA_START <= at < DATA_START + SMALL)
    )
    places = f"words lie from 0 to {SMALL - 4:#x} and from {DATA_START:#x} to {DATA_START + SMALL - 4:#x}"
    return line.at(
        f"the word at {outside:#x} is outside of the scratchpads",
        0,
        f"{places}; a larger image comes from an ELF file",
        end=len(line.rest),
    )


def _explain_overlap(line: _Line, data: bytes) -> Explanation:
    addresses, owners = _addresses(line, data)
    taken = next(at for at in addresses if at in owners)
    found = line.at(
        f"a word lies at {taken:#x} already",
        0,
        ".org sets the address of what follows",
        end=len(line.rest),
    )
    return replace(found, other=(owners[taken], "it is placed here first"))


def shown(path: str, data: bytes, found: Explanation) -> Iterator[str]:
    """An explanation with the line and a mark under the place."""
    texts = [text.decode("utf-8", "replace") for text in lines_of(data)]
    where = path if not found.line else f"{path}:{found.line}"
    yield f"{where}{'' if found.column is None else f':{found.column + 1}'}: error: {found.text}"
    if found.line:
        text = texts[found.line - 1]
        yield f"{found.line:>5} | {text}"
        if found.column is not None:
            blank = "".join("\t" if char == "\t" else " " for char in text[: found.column])
            yield f"      | {blank}^{'~' * (found.width - 1)}"
    yield from (f"      = {hint}" for hint in found.hints)
    if found.other:
        yield f"{path}:{found.other[0]}: {found.other[1]}"
        yield f"{found.other[0]:>5} | {texts[found.other[0] - 1]}"
