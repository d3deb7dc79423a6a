"""The rules of fp_lint."""

import re
from dataclasses import dataclass
from enum import Enum
from pathlib import Path
from typing import Callable, Iterator, Mapping

from fptools.code.digraph import search
from fptools.flow.counts import count_of_straight, jumps_of
from fptools.files.image import ImageError, read_image
from fptools.files.setup import KeyPath, Setup, read_setup, spelled
from fptools.limits import DATA_START, LARGE
from fptools.files.schemas import faults
from fptools.isa.words import Word
from fptools.untyped import Values

SCHEMA = Path(__file__).resolve().parent / "setup.schema.json"
MOST_NAME = 255
# The text of the schema's library for a key that isn't there.
MISSING = re.compile(r"'(\w+)' is a required property")
NO_MTVEC = "nothing sets mtvec, which is 0: a trap goes to address 0"


class Level(Enum):
    ERROR = "error"
    WARNING = "warning"
    NOTE = "note"


@dataclass(frozen=True)
class Finding:
    """A message about a key."""

    line: int | None
    level: Level
    key: str
    text: str

    def __str__(self) -> str:
        return f"{self.line or 1}: {self.level.value}: {self.key}: {self.text}"


Said = tuple[Level, KeyPath, str]
Words = Mapping[int, int]


def error(path: KeyPath, text: str) -> Said:
    return Level.ERROR, path, text


def warning(path: KeyPath, text: str) -> Said:
    return Level.WARNING, path, text


def note(path: KeyPath, text: str) -> Said:
    return Level.NOTE, path, text


def lint(setup: Setup) -> list[Finding]:
    """All findings, by line. Rules that need a valid setup, or the image, only run if there is one."""
    said = refusals(setup)
    if not said:
        words, said = _image(setup)
        said += [it for rule in RULES for it in rule(setup)]
        if words is not None:
            said += [it for code_rule in CODE_RULES for it in code_rule(setup, words)]
    findings = [Finding(setup.line(path), level, spelled(path), text) for level, path, text in said]
    return sorted(findings, key=lambda it: (it.line or 0, it.level.value, it.key))


def refusals(setup: Setup) -> list[Said]:
    """The faults for which the program refuses a setup, without those of its image."""
    return list(_schema(setup)) or list(_refusals(setup))


def read_valid(path: Path) -> Setup:
    """A setup that the program takes; another one is a `ValueError`, with the line and key of a fault."""
    setup = read_setup(path)
    if said := refusals(setup):
        _, key, text = said[0]
        raise ValueError(f"{path}:{setup.line(key) or 1}: {spelled(key)}: {text}")
    return setup


def _schema(setup: Setup) -> Iterator[Said]:
    """The faults by the schema of setups."""
    for fault in faults(SCHEMA, setup.values):
        missing = MISSING.fullmatch(fault.message)
        yield error((*fault.absolute_path, *(missing.groups() if missing else ())), fault.message)


def _threads(setup: Setup) -> Iterator[tuple[KeyPath, Values]]:
    for index, thread in enumerate(setup.values.get("thread", [])):
        yield ("thread", index), thread


def _loops(setup: Setup) -> Iterator[tuple[KeyPath, dict[str, int]]]:
    for index, loop in enumerate(setup.values.get("loop", [])):
        yield ("loop", index), loop


def _is_awake(thread: Values) -> bool:
    return not thread["mode"].endswith("asleep")


def _refusals(setup: Setup) -> Iterator[Said]:
    """The faults beyond the schema, which can't compare values."""
    past = f"is past the scratchpad of {setup.size} bytes"
    if len(setup.values["image"].encode()) > MOST_NAME:
        yield error(("image",), f"has more than {MOST_NAME} bytes")
    named: set[int] = set()
    for path, thread in _threads(setup):
        if thread["id"] in named:
            yield error((*path, "id"), f"an earlier table is of thread {thread['id']} too")
        named.add(thread["id"])
        if thread.get("confined") and thread.get("permit"):
            yield error((*path, "permit"), "not beside confined = true")
        if thread["entry"] >= setup.size:
            yield error((*path, "entry"), past)
        yield from _unsorted(path, thread)
    for path, loop in _loops(setup):
        yield from (
            error((*path, key), past) for key in ("head", "last") if loop[key] >= setup.size
        )
        if loop["last"] < loop["head"]:
            yield error((*path, "last"), "is below head")


def _unsorted(path: KeyPath, thread: Values) -> Iterator[Said]:
    """Inputs whose cycle isn't above that of the one before."""
    cycles = [cycle for cycle, _ in thread.get("inputs", [])]
    for index, (before, cycle) in enumerate(zip(cycles, cycles[1:]), 1):
        if cycle <= before:
            yield error((*path, "inputs", index), f"cycle {cycle} isn't above {before}")


def _image(setup: Setup) -> tuple[dict[int, int] | None, list[Said]]:
    """The image's words, or why there are none."""
    image = setup.image
    try:
        words = read_image(image)
    except ImageError as fault:
        return None, [error(("image",), str(fault))]
    except OSError as fault:
        beside = setup.path.parent / image.name
        hint = (
            f"; {beside} is there: names are relative to the folder of the call"
            if beside.is_file()
            else ""
        )
        return None, [
            warning(("image",), f"{image} can't be read from here: {fault.strerror}{hint}")
        ]
    except ValueError as fault:  # a name with a zero byte
        return None, [warning(("image",), f"can't be read: {fault}")]
    if any(at % DATA_START >= setup.size for at in words):
        return None, [error(("image",), f"places words past {setup.size} bytes: write version = 2")]
    return words, []


def _slots(setup: Setup) -> Iterator[Said]:
    """Slots that nobody has."""
    slots = setup.values["slots"]
    names = {f"T{thread['id']}" for _, thread in _threads(setup)}
    if all(slot == "D" for slot in slots):
        yield warning(("slots",), "all are D: nobody runs")
    for index, slot in enumerate(slots):
        if slot[0] == "T" and slot not in names:
            text = f"{slot} has no table, so it sleeps, and soft threads have its turns"
            yield warning(("slots", index), text)
    if "S" in slots and not any(thread["mode"] == "soft" for _, thread in _threads(setup)):
        yield note(("slots",), "no thread starts soft and awake, so nobody has the turns of S")


def _turns(setup: Setup) -> Iterator[Said]:
    """Threads without a slot. One may get its slot, or a sleeper's turn, in a run."""
    slots = setup.values["slots"]
    may_change = any(thread.get("permit") for _, thread in _threads(setup))
    sleepers = any(f"T{it['id']}" in slots and not _is_awake(it) for _, it in _threads(setup))
    for path, thread in _threads(setup):
        name = f"T{thread['id']}"
        if name in slots:
            continue
        if thread["mode"].startswith("hard"):
            say = note if may_change else warning
            yield say((*path, "mode"), f"{name} is hard, and no slot is its own: it doesn't run")
        if thread["mode"] == "soft" and "S" not in slots:
            say = note if sleepers else warning
            text = (
                f"{name} is soft, and no slot is S or its own: it runs while a slot's thread sleeps"
            )
            yield say((*path, "mode"), text)


def _permits(setup: Setup) -> Iterator[Said]:
    """Who may change the machine, and who needs that."""
    has_permit = any(thread.get("permit") for _, thread in _threads(setup))
    has_confined = any(thread.get("confined") for _, thread in _threads(setup))
    for path, thread in _threads(setup):
        if not _is_awake(thread) and not has_permit:
            yield warning((*path, "mode"), "starts asleep, and no thread has a permit to wake it")
        if thread.get("permit") and has_confined:
            text = "once it writes slots, modes or regions, what is promised of quiet runs ends"
            yield note((*path, "permit"), text)


def _regions(setup: Setup) -> Iterator[Said]:
    """Threads that have no region for their code or data."""
    for path, thread in _threads(setup):
        name, owner = f"T{thread['id']}", setup.region("i_regions", thread["entry"])
        if thread.get("confined") and owner not in (name, "readonly"):
            text = f"{name} is confined, and its entry is in a region of {owner}: each fetch traps"
            yield warning((*path, "entry"), text)
        if not {name, "shared"} & set(setup.values["d_regions"]):
            yield note(("d_regions",), f"{name} may store nowhere")


def _ports(setup: Setup) -> Iterator[Said]:
    """Inputs that a port doesn't show, or not from the start."""
    for path, thread in _threads(setup):
        inputs = thread.get("inputs", [])
        if inputs and inputs[0][0] > 0:
            yield note((*path, "inputs"), f"the port shows 0 before cycle {inputs[0][0]}")
        for index, (cycle, _) in enumerate(inputs):
            if cycle >= thread.get("unplug", cycle + 1):
                yield warning((*path, "inputs", index), "the port is unplugged by then")


def _reachable(words: Words, entry: int) -> list[Word]:
    """The words that a thread can reach, where calls come back."""

    def onward(pc: int) -> list[int]:
        return [to for to in Word(pc, words.get(pc, 0)).onward if to < LARGE]

    return [Word(pc, words.get(pc, 0)) for pc in search([entry], onward) if pc < LARGE]


def _entries(setup: Setup, words: Words) -> Iterator[Said]:
    """Threads whose first word is no code, or which trap to address 0."""
    for path, thread in _threads(setup):
        entry = thread["entry"]
        if not _is_awake(thread):
            continue
        if not Word(entry, words.get(entry, 0)).is_code:
            what = "a word that is no instruction" if words.get(entry) else "nothing of the image"
            yield warning(
                (*path, "entry"), f"{what} is at {entry:#x}: the thread traps at once, to address 0"
            )
            continue
        code = _reachable(words, entry)
        if any(word.writes_mtvec for word in code):
            continue
        on_purpose = next((word for word in code if word.traps_by_intent), None)
        if on_purpose:
            yield warning(
                (*path, "entry"), f"the word at {on_purpose.pc:#x} is there to trap, and {NO_MTVEC}"
            )
        else:
            yield note((*path, "entry"), NO_MTVEC)


def _loop_tables(setup: Setup, words: Words) -> Iterator[Said]:
    """Tables of loops that the code doesn't have, or whose bound it contradicts."""
    jumps = jumps_of(words)
    for path, loop in _loops(setup):
        head, last, bound = loop["head"], loop["last"], loop["bound"]
        backs = [pc for pc in range(head, last + 4, 4) if pc in jumps.get(head, ())]
        if not backs:
            text = f"no branch or jump from {head:#x} to {last:#x} goes back to {head:#x}: has the code moved?"
            yield warning((*path, "head"), text)
            continue
        if backs[-1] != last:
            yield note((*path, "last"), f"the last way back to {head:#x} is at {backs[-1]:#x}")
        count = count_of_straight(words, jumps, head, backs[-1])
        if count is not None and bound != count.backs:
            side = "too few" if bound < count.backs else "more than that"
            text = f"the code counts {count.backs + 1} rounds, which is bound = {count.backs}; {bound} is {side}"
            yield warning((*path, "bound"), text)
        elif count is None and bound == 0:
            text = "0 says that the loop never goes back"
            yield warning((*path, "bound"), text)


RULES: tuple[Callable[[Setup], Iterator[Said]], ...] = (_slots, _turns, _permits, _regions, _ports)
CODE_RULES: tuple[Callable[[Setup, Words], Iterator[Said]], ...] = (_entries, _loop_tables)
