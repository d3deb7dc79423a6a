"""Explains the refusal lines of the program: the place, by symbol and line, and what to do. docs/COMMANDS.md
has the tables. Only the names of an executable need a package beyond Python itself."""

import re
from dataclasses import dataclass, field
from pathlib import Path
from typing import Iterator, Mapping

from fptools import has
from fptools.program.answers import NoAnswer, Refusal, read_answer
from fptools.asm.source import text_of
from fptools.asm.tokens import SourceNo
from fptools.files.elf import Program, ProgramError
from fptools.files.image import ImageError, read_image
from fptools.files.setup import KeyPath, Setup, read_setup
from fptools.asm.faults import explain_source, shown
from fptools.files.sources import Sources
from fptools.files.toml import TomlError
from fptools.isa.words import MRET, OPCODE_JALR, RETURN_ADDRESS, Word


RETURN = 0x0000_8067
OVERFLOW = 6

BOUND_HINTS = {
    "Nesting": "its loops overlap without one inside the other, two tables have this head, it lies in four "
    "others, or a jump leads into it past its head: correct `last`, or merge tables with one head; fp_layout "
    "places the blocks of compiled code in order",
    "TimedWait": "a wait takes as long as its moment says: end the section before it, and begin another "
    "behind",
    "UnboundedBackEdge": "state how often this loop goes back by a table; fp_loops writes it",
    "Overlap": "it has words in common with the section: take the section's own function out of the list, or "
    "end the section before it",
    "Recursion": "calls lead from it back to it: rewrite it as a loop",
    "Escape": "it leaves its function other than by a return: compile with -fno-optimize-sibling-calls and "
    "-fno-ipa-icf, or correct the function's last word in the list",
}
SECTION_HINTS = {
    "NotHard": (
        "mode",
        'a bound and `solo` are of a thread that starts hard and awake: mode = "hard"',
    ),
    "NoSlot": ("slots", "no slot is the thread's: give it one"),
    "Order": (
        None,
        "--to isn't above --from: the section is the words from --from up to below --to",
    ),
    "Misaligned": (None, "both addresses are multiples of 4"),
    "Outside": (
        None,
        "the section ends past the instruction scratchpad; `version = 2` in the setup has 65,536 bytes",
    ),
    "NotConfined": (
        "confined",
        "others may have a part in its trace: `confined = true`, or use `run`",
    ),
}
SETUP_HINTS = {
    "TooLong": "the file has more than 262,144 bytes: shorten comments and inputs",
    "Toml": "it isn't a TOML document, or not UTF-8",
    "UnknownKey": "this table has an unknown key: correct the spelling, and move the keys of the top above the first "
    "[[thread]] or [[loop]]",
    "MissingKey": "this key is required: add it",
    "WrongType": 'the value has another type: 10 and not "10", [[thread]] with two brackets, inputs as '
    "[cycle, word]",
    "OutOfRange": "the value isn't in its range: a list has eight elements, addresses are multiples of 4 and need "
    "`version = 2` above 16,380, input cycles rise, `last` isn't below `head`",
    "BadSlot": "a slot is one of T0 to T7, S and D",
    "BadMode": "a mode is one of hard, hard-asleep, soft and soft-asleep",
    "BadRegion": "an owner is one of T0 to T7, shared and readonly",
    "ConfinedPermit": "`confined` and `permit` are both true: drop one",
    "DoubleThread": "an earlier table has this `id`: join the tables, or change one",
    "TooMany": "there are at most 8 threads, 256 loops, and 4,096 inputs of a thread",
}
"""What to do about a refused setup, by the name of the refusal."""
IMAGE_HINTS = {
    "TooLong": "the file is longer than any image; for addresses past 16,380 the setup says `version = 2`",
    "Magic": "it doesn't begin with FPX1: `asm` makes an image of a source, and `elf` of an executable",
    "Truncated": "the file was cut: make it again",
    "BadSegment": "a segment isn't whole words inside one scratchpad; addresses past 16,380 need `version = 2` "
    "in the setup",
    "Overlap": "two of its parts have an address in common: correct the linker script, or sort the segments",
    "Trailing": "bytes follow the last segment: make it again",
    "NotElf": "it isn't an ELF file: an archive, a source, or an image already?",
    "Class": "it isn't of 32 bits: -mabi=ilp32, and -m elf32lriscv for GNU ld",
    "ByteOrder": "it isn't little endian",
    "Kind": "it isn't a linked executable: link it, without -r, -pie and -shared",
    "Machine": "it isn't for RISC-V",
    "EntrySize": "its program headers don't have 32 bytes",
    "Dynamic": "it is to be linked when it is loaded: link with -static",
    "BadLoad": "a part of it is outside of the scratchpads: link by a script, as examples/c/flexpret.ld",
    "TooManySegments": "more than 16 runs of words with gaps between: place sections next to each other",
}
ROUTINES_HINTS = {
    "TooMany": "at most 64 routines",
    "BadLine": "a line is the addresses of a first and a last word, as `00000100 00000104`, and a line feed",
    "BadPlace": "addresses are multiples of 4 in the instruction scratchpad, the first not above the last",
    "Order": "each routine begins above the last word of the one before: sort the lines, each function once",
}


class NoRefusal(Exception):
    """The text is no refusal line, or a file that explains it isn't given."""


@dataclass
class Context:
    """The arguments of the refused command, as far as they are known."""

    setup: Path | None = None
    file: Path | None = None  # the source, image, executable or list of routines
    program: Program = field(default_factory=Program)  # names of addresses
    sources: Path | None = None  # where they are, if not where they were compiled
    thread: int | None = None


def explain(line: str, context: Context) -> list[str]:
    """The lines that explain a refusal."""
    refusal = _read(line.strip())
    explainers = {
        "source": _source,
        "bound": _bound,
        "setup": _setup,
        "section": _section,
        "image": _image,
        "routines": _routines,
    }
    try:
        return list(explainers[refusal.what](refusal, context))
    except (IndexError, KeyError, ValueError) as fault:
        raise NoRefusal(
            f"this program has no such refusal, or the file has changed since: {line.strip()[:80]!r}"
        ) from fault


def _read(line: str) -> Refusal:
    try:
        found = read_answer(line)
    except NoAnswer:
        found = None
    if not isinstance(found, Refusal):
        raise NoRefusal(f"no refusal line: {line[:80]!r}")
    return found


def _source(refusal: Refusal, context: Context) -> Iterator[str]:
    if context.file is None:
        raise NoRefusal("the source is needed: --file SOURCE")
    data = context.file.read_bytes()
    fault = explain_source(data, int(refusal.place), SourceNo[refusal.name])
    yield from shown(str(context.file), data, fault)


# ---------------------------------------------------------------- bounds


def _code(context: Context) -> Mapping[int, int]:
    """The words of the setup's image, or of the executable."""
    if context.setup is not None:
        try:
            return read_image(read_setup(context.setup).image)
        except (OSError, ImageError, TomlError, KeyError):
            pass
    return context.program.words


def _bound(refusal: Refusal, context: Context) -> Iterator[str]:
    name = refusal.name
    if refusal.code == OVERFLOW:
        yield f"error: the bound is {int(refusal.place):,} cycles, which has more than 64 bits"
        yield "      = bounds of nested loops multiply: look at the tables of the setup"
        return
    at = int(refusal.place, 16)
    bits = _code(context).get(at, 0)
    yield from _place(at, bits, name, context)
    if name == "IndirectJump":
        yield f"      = {_indirect(bits)}"
    elif name in BOUND_HINTS:
        yield f"      = {BOUND_HINTS[name]}"
    if name == "UnboundedBackEdge":
        yield from _table_for(at, bits)
    if context.setup is not None and name in ("Nesting", "UnboundedBackEdge"):
        yield from _tables(
            context.setup, at, Word(at, bits).target if name == "UnboundedBackEdge" else at
        )


def _place(at: int, bits: int, name: str, context: Context) -> Iterator[str]:
    """The address with its symbol, word, and source line."""
    program = context.program
    symbol, line = program.name_of(at), program.line_of(at)
    where = f"{line}: " if line else ""
    text = text_of(at, bits, dict(program.symbols))
    yield f"{where}error: {name} at {at:#x}{f' {symbol}' if symbol else ''}: {text}"
    if line:
        text = Sources(context.sources).text(line).rstrip()
        if text:
            yield f"{line.number:>5} | {text}"


def _indirect(bits: int) -> str:
    word = Word(0, bits)
    if bits == RETURN:
        return "a return: end the section before it; the command calls goes through functions that return"
    if bits == MRET:
        return "a handler's return: end the section before it"
    if word.opcode == OPCODE_JALR and word.rd == RETURN_ADDRESS:
        return (
            "a call through a register: call the function by its name; assemble what clang -S writes by GNU "
            "as, and link with relaxation"
        )
    return (
        "a jump through a register: a switch by a table (-fno-jump-tables), a tail call by pointer"
    )


def _table_for(at: int, bits: int) -> Iterator[str]:
    """The table that states the loop of a back edge."""
    head = Word(at, bits).target
    if head is not None and head <= at:
        bound = "bound = how often it goes back at most"
        yield f"      = [[loop]] head = {head:#x}, last = {at:#x} or further, {bound}"


def _tables(path: Path, at: int, head: int | None) -> Iterator[str]:
    """The setup's tables with this head, or around this address, with their lines."""
    try:
        setup = read_setup(path)
    except (OSError, TomlError):
        return
    for index, it in enumerate(setup.values.get("loop", [])):
        if it.get("head") == head or it.get("head", 0) <= at <= it.get("last", -1):
            line = setup.line(("loop", index))
            words = f"{it.get('head'):#x} to {it.get('last'):#x}, bound = {it.get('bound')}"
            yield f"{path}:{line}: loop[{index}] is {words}"


# ---------------------------------------------------------------- setups, sections, images, routines


def _setup(refusal: Refusal, context: Context) -> Iterator[str]:
    if context.setup is None:
        raise NoRefusal("the setup is needed: --setup SETUP")
    try:
        setup = read_setup(context.setup)
    except TomlError as fault:
        yield f"{context.setup}:{fault.line}: error: {fault.text}"
        return
    if not has("jsonschema"):
        place = "" if refusal.place in ("-", "top") else f"{refusal.place}: "
        yield f"{context.setup}:{setup.line(key_of(refusal.place)) or 1}: error: {place}{SETUP_HINTS[refusal.name]}"
        return
    from fptools.files.lint import Level, lint

    findings = [it for it in lint(setup) if it.level is Level.ERROR]
    own = [it for it in findings if it.key == refusal.place] or findings
    for finding in own:
        yield f"{context.setup}:{finding.line or 1}: error: {finding.key}: {finding.text}"
    if not own:
        yield f"{context.setup}: error: {refusal.place}: {refusal.name}"


def key_of(place: str) -> KeyPath:
    """The path that `spelled` writes as this text, or the empty path for `-` and `top`."""
    parts = re.findall(r"[A-Za-z_]\w*|\d+", place)
    return (
        ()
        if place in ("-", "top")
        else tuple(int(part) if part.isdecimal() else part for part in parts)
    )


def _section(refusal: Refusal, context: Context) -> Iterator[str]:
    key, hint = SECTION_HINTS[refusal.name]
    if refusal.name == "NotHard" and _lacks_thread(context):
        hint = f'no [[thread]] has id = {context.thread}: it starts asleep; add a table with mode = "hard" and an entry'
    where = _key_line(context, key) if key else None
    thread = "" if context.thread is None else f"T{context.thread}: "
    yield f"{where}: error: {thread}{hint}" if where else f"error: {thread}{hint}"


def _lacks_thread(context: Context) -> bool:
    """Whether the setup is known to have no table of the thread."""
    if context.setup is None or context.thread is None:
        return False
    try:
        setup: Setup = read_setup(context.setup)
    except (OSError, TomlError):
        return False
    return all(it.get("id") != context.thread for it in setup.values.get("thread", []))


def _key_line(context: Context, key: str) -> str | None:
    """FILE:LINE of a key of the thread's table, or of the top."""
    if context.setup is None:
        return None
    try:
        setup: Setup = read_setup(context.setup)
    except (OSError, TomlError):
        return None
    threads = setup.values.get("thread", [])
    index = next((at for at, it in enumerate(threads) if it.get("id") == context.thread), None)
    path: KeyPath = (key,)
    if key != "slots" and index is not None:
        path = "thread", index, key
    line = setup.line(path)
    return f"{context.setup}:{line}" if line else str(context.setup)


def _image(refusal: Refusal, context: Context) -> Iterator[str]:
    name = refusal.name
    file = context.file
    if file is None and context.setup is not None:
        try:
            file = read_setup(context.setup).image
        except (OSError, TomlError, KeyError):
            pass
    yield f"{file or 'the image'}: error: {name} at byte {int(refusal.place)}"
    yield f"      = {IMAGE_HINTS[name]}"


def _routines(refusal: Refusal, context: Context) -> Iterator[str]:
    line, name = refusal.place, refusal.name
    where = f"{context.file}:{line}" if context.file else f"line {line} of the routines"
    yield f"{where}: error: {name}"
    if context.file:
        texts = context.file.read_text(encoding="ascii", errors="replace").split("\n")
        yield f"{int(line):>5} | {texts[int(line) - 1]}"
    yield f"      = {ROUTINES_HINTS[name]}"


FAULTS = (OSError, ProgramError, NoRefusal)
