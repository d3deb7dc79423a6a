"""lines.txt, tokens.txt, words.txt, sources.txt, gnu.txt and longest.txt: lines that are written, and texts that are
read."""

from collections.abc import Callable

from model.assembler import SourceFault, assemble
from model.effects import NOTHING, Asleep, Effect, Event, Register, Stored, Trapped, Written
from model.images import Image
from model.questions import Question, ask

from model.refusals import (
    LOOP_KEYS, THREAD_KEYS, TOP_KEYS, BoundNo, ElfNo, ImageNo, RoutinesNo, SectionNo, SetupNo, SourceNo, bound_line,
    image_line, routines_line, section_line, setup_line, source_line,
)  # fmt: skip
from model.tables.forms import number, numbers, unescaped
from model.tokens import LexFault, LexNo, tokens

EFFECTS: dict[str, Callable[..., Effect]] = {
    "nothing": lambda: NOTHING, "register": Register, "store": lambda address, value: Stored(address, 4, value),
    "csr": Written, "trap": Trapped, "wait": Asleep,
}  # fmt: skip


def event_line(call: str) -> bytes:
    cycle, pc, value, name, *rest = call.split()
    fields = map(number, rest)
    return Event(number(cycle), 0, number(pc), number(value), EFFECTS[name](*fields)).line()


def path(table: int, row: int, key: int, item: int) -> str:
    """A path of a setup by its numbers, which count keys and items from 1."""
    if table == 0:
        return "-"
    if table == 1:
        text = TOP_KEYS[key - 1] if key else "top"
    else:
        name, keys = ("thread", THREAD_KEYS) if table == 2 else ("loop", LOOP_KEYS)
        text = f"{name}[{row}]" + (f".{keys[key - 1]}" if key else "")
    return text + (f"[{item - 1}]" if item else "")


def image_no(code: int) -> ImageNo | ElfNo:
    return ElfNo(code) if code >= min(ElfNo) else ImageNo(code)


REFUSALS: dict[str, Callable[..., bytes]] = {
    "setup": lambda code, *parts: setup_line(SetupNo(code), path(*parts)),
    "section": lambda code: section_line(SectionNo(code)),
    "image": lambda code, offset: image_line(image_no(code), offset),
    "source": lambda code, line: source_line(line, SourceNo(code)),
    "bound": lambda code, value: bound_line(BoundNo(code), value),
    "routines": lambda code, line: routines_line(line, RoutinesNo(code)),
}


def line_answer(call: str) -> str:
    """The line of an event or of a refusal, without its line feed."""
    name, _, rest = call.partition(" ")
    line = event_line(rest) if name == "event" else REFUSALS[name](*numbers(rest))
    return line.decode().rstrip("\n")


def tokens_answer(call: str) -> str:
    """The tokens of a line, or its fault."""
    try:
        found = tokens(unescaped(call))
    except LexFault as fault:
        return (
            fault.code.name
            if fault.code == LexNo.TooMany
            else f"{fault.code.name} {{ column: {fault.column} }}"
        )
    return "".join(
        f"{token.kind.value} {token.start}..{token.end} {token.value};" for token in found
    )


def asked(question: Question) -> str:
    """A question with its values."""
    values: list[int | str] = []
    match question.command:
        case "run" | "solo" | "check":
            values = [question.thread, question.cycles]
        case "dump" | "phases":
            values = [question.cycles]
        case "bound" | "calls":
            values = [question.thread, question.start, question.end]
        case "selfrun":
            return f"selfrun {question.number}"
    other = [question.other_file] if question.other_file else []
    return " ".join(map(str, [question.command, question.file, *values, *other]))


def words_answer(call: str) -> str:
    """The command of a command line; a call without a colon has no arguments."""
    question = ask(call[1:].split(" ") if call.startswith(":") else [])
    return "usage" if question is None else asked(question)


def segments(image: Image) -> str:
    return "".join(f"{address:x}:{data.hex()};" for address, data in image.segments)


def source_answer(call: str) -> str:
    """The image of a source, or its fault. A number before a tab is the count of its first byte."""
    count, sign, rest = call.partition("\t")
    source = unescaped(rest if sign else call)
    source = source[:1] * int(count if sign else 1) + source[1:]
    try:
        return f"image {segments(assemble(source))}"
    except SourceFault as fault:
        return f"fault {fault.line} {fault.code} {fault.code.name}"
