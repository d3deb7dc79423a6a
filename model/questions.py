"""The commands of command lines."""

import re
from collections.abc import Sequence
from dataclasses import dataclass

from model.bits import LAST_WORD
from model.setups import MOST_CYCLES

MOST_CHECKED_CYCLES = 1_000_000

OPTIONS = {
    "run": ("thread", "cycles"), "dump": ("cycles",), "asm": (), "bound": ("thread", "from", "to"), "selfrun": (),
    "solo": ("thread", "cycles"), "check": ("thread", "cycles", "trace"), "elf": (), "phases": ("cycles",),
    "calls": ("thread", "from", "to", "routines"),
}  # fmt: skip
"""The options of each command, all of which are needed."""


@dataclass(frozen=True)
class Question:
    """A command, the file that it is about or the number of `selfrun`, and the values of its options."""

    command: str
    file: str = ""
    number: int = 0
    thread: int = 0
    cycles: int = 0
    start: int = 0
    end: int = 0
    other_file: str = ""


def decimal(text: str, most: int) -> int | None:
    """The number of one to ten decimal digits, where it isn't too large."""
    return int(text) if re.fullmatch("[0-9]{1,10}", text) and int(text) <= most else None


def address(text: str) -> int | None:
    """The address of decimal digits, or of `0x` and hexadecimal ones."""
    return int(text, 16) if re.fullmatch("0x[0-9a-fA-F]{1,8}", text) else decimal(text, LAST_WORD)


def option_value(command: str, name: str, text: str) -> int | str | None:
    if name == "thread":
        return int(text) if re.fullmatch("[0-7]", text) else None
    if name == "cycles":
        return decimal(text, MOST_CHECKED_CYCLES if command == "check" else MOST_CYCLES)
    return address(text) if name in ("from", "to") else text


def is_plain(text: str) -> bool:
    """Whether a word may be a file's name or an option's value."""
    return text != "" and not text.startswith("-")


def sorted_out(words: Sequence[str]) -> tuple[list[str], list[tuple[str, str]]] | None:
    """The plain words, and the options with their values; None where a word is neither."""
    plain: list[str] = []
    options: list[tuple[str, str]] = []
    left = list(words)
    while left:
        text = left.pop(0)
        if is_plain(text):
            plain.append(text)
            continue
        name, sign, value = text[2:].partition("=")
        if not text.startswith("--") or (not sign and not left):
            return None
        options.append((name, value if sign else left.pop(0)))
    return plain, options


FIELDS = {"from": "start", "to": "end", "trace": "other_file", "routines": "other_file"}


def ask(words: Sequence[str]) -> Question | None:
    """The command of a command line; None if it gives none."""
    if not words or words[0] not in OPTIONS:
        return None
    command, parts = words[0], sorted_out(words[1:])
    if parts is None:
        return None
    plain, options = parts
    if len(plain) != 1 or sorted(name for name, _ in options) != sorted(OPTIONS[command]):
        return None
    if not all(is_plain(text) for _, text in options):
        return None
    values = {FIELDS.get(name, name): option_value(command, name, text) for name, text in options}
    if command == "selfrun":
        values["number"] = decimal(plain[0], LAST_WORD)
    if None in values.values():
        return None
    return Question(command, file=plain[0], **values)  # type: ignore[arg-type]
