"""The command line of the program: the wrong argument, the allowed values, and the files that it names.

The rules are those of `read_words` in the crate command_line; the tests compare both on the rows of the gate."""

import difflib
import re
from dataclasses import dataclass, field
from functools import partial
from typing import Callable, Iterator, Mapping, Sequence

from fptools.limits import MOST_CYCLES

MOST_CHECKED = 1_000_000
"""The most cycles that `check` compares."""

MOST_NUMBER = (1 << 32) - 1
"""The largest address, and the largest number of `selfrun`."""


@dataclass(frozen=True)
class Command:
    """A command: the name of its file or number in messages, and its options. Each option is required once."""

    subject: str
    options: tuple[str, ...] = ()


COMMANDS = {
    "run": Command("SETUP", ("thread", "cycles")),
    "dump": Command("SETUP", ("cycles",)),
    "phases": Command("SETUP", ("cycles",)),
    "solo": Command("SETUP", ("thread", "cycles")),
    "check": Command("SETUP", ("thread", "cycles", "trace")),
    "bound": Command("SETUP", ("thread", "from", "to")),
    "calls": Command("SETUP", ("thread", "from", "to", "routines")),
    "asm": Command("SOURCE"),
    "elf": Command("FILE"),
    "selfrun": Command("NUMBER"),
}
ALL_COMMANDS = (*COMMANDS, "disasm")
"""The commands of the script: those of the program, and one that a tool runs."""

ADDED = {
    "asm": ("-o", "--listing", "--map"),
    "elf": ("-o",),
    "bound": ("--elf", "--map"),
    "calls": ("--elf", "--map"),
}
"""The options that the script adds to a command."""

BEFORE_VIEW = ("--quiet", "--unproved", "--use", "--version", "--help")
BEFORE = ("--quiet", "--model", *BEFORE_VIEW[1:])
"""The options of the scripts themselves, which are written before the command."""

VALUES = {"thread": "I", "cycles": "N", "from": "A", "to": "B", "trace": "FILE", "routines": "FILE"}
"""The name of an option's value in messages."""


@dataclass
class Asked:
    """The arguments after a command: those without an option, and the values of each option."""

    subjects: list[str] = field(default_factory=list)
    values: dict[str, list[str]] = field(default_factory=dict)

    def value(self, option: str) -> str:
        return self.values[option][0]


class Fault(Exception):
    """The fault of a command line, in one line."""


def form(name: str) -> str:
    """The usage of a command."""
    command = COMMANDS[name]
    return " ".join(
        [name, command.subject, *(f"--{option} {VALUES[option]}" for option in command.options)]
    )


# ---------------------------------------------------------------- numbers


def decimal(text: str, most: int) -> int | None:
    """The number of one to ten decimal digits, up to a limit."""
    return int(text) if re.fullmatch("[0-9]{1,10}", text) and int(text) <= most else None


def address(text: str) -> int | None:
    """An address in decimal, or in hexadecimal after 0x."""
    if re.fullmatch("0x[0-9a-fA-F]{1,8}", text):
        return int(text, 16)
    return decimal(text, MOST_NUMBER)


def thread_fault(text: str) -> str | None:
    return None if re.fullmatch("[0-7]", text) else "threads are 0 to 7"


NAMED = re.compile(r"[A-Za-z_.$][\w.$]*(\+(0x[0-9a-fA-F]+|\d+))?")
"""A name, or a name and a number."""


def cycles_fault(text: str, most: int) -> str | None:
    if decimal(text, most) is not None:
        return None
    return f"a number of cycles is one to ten decimal digits, at most {most}"


def address_fault(text: str) -> str | None:
    if address(text) is not None:
        return None
    named = "; a name needs --elf FILE or --map FILE" if NAMED.fullmatch(text) else ""
    return f"an address is decimal, or 0x and one to eight hexadecimal digits, at most 0xffffffff{named}"


FAULTS: dict[str, Callable[[str], str | None]] = {
    "thread": thread_fault,
    "cycles": lambda text: cycles_fault(text, MOST_CYCLES),
    "from": address_fault,
    "to": address_fault,
}
"""A check of an option's value. It returns the fault, or None. Any text is a file name."""


def value_fault(name: str, option: str, text: str) -> str | None:
    """The fault of the value of a command's option, or None."""
    if name == "check" and option == "cycles":
        is_large = decimal(text, MOST_CYCLES) is not None and decimal(text, MOST_CHECKED) is None
        return (
            f"check compares at most {MOST_CHECKED} cycles"
            if is_large
            else cycles_fault(text, MOST_CHECKED)
        )
    return FAULTS.get(option, lambda text: None)(text)


# ---------------------------------------------------------------- arguments


def sort_out(name: str, words: list[str]) -> Asked:
    """Sorts the arguments after a command. An argument that the command doesn't have raises a Fault."""
    asked = Asked()
    left = iter(words)
    for word in left:
        if word and not word.startswith("-"):
            asked.subjects.append(word)
            continue
        if not word:
            raise Fault("an argument is empty")
        known = {one: VALUES[one] for one in COMMANDS[name].options}
        option, text = option_of(word, left, known, partial(unknown_option, name))
        if text.startswith("-"):
            cure = f" (write ./{text})" if VALUES[option] == "FILE" else ""
            raise Fault(f"--{option} {text}: a value doesn't begin with -{cure}")
        asked.values.setdefault(option, []).append(text)
    return asked


def option_of(
    word: str, left: Iterator[str], known: Mapping[str, str], unknown: Callable[[str], str]
) -> tuple[str, str]:
    """The option in an argument, and its value, which may be the next argument. `known` has the names of values."""
    option, sign, value = word.removeprefix("--").partition("=")
    if not word.startswith("--") or option not in known:
        raise Fault(unknown(word))
    if not sign:
        value = next(left, "")
    if not value:
        raise Fault(f"--{option}: {known[option]} is missing")
    return option, value


def unknown_option(name: str, word: str) -> str:
    """The message about an argument that begins with `-` and is no option of the command."""
    options = [*(f"--{one}" for one in COMMANDS[name].options), *ADDED.get(name, ())]
    known = (
        f"{name} has the option{'s' * (len(options) > 1)} {listed(options)}"
        if options
        else f"{name} has no options"
    )
    if not word.startswith("--"):
        return f"{word}: {known}; a file whose name begins with - is written ./{word}"
    option = word.partition("=")[0]
    near = difflib.get_close_matches(option, options, 1)
    return f"{option}: {known}" + (f"; is {near[0]} meant?" if near else "")


def unknown_option_before(word: str, known: Sequence[str] = BEFORE) -> str:
    """The message about an argument before the command that begins with `-` and is no option of the script."""
    option = word.partition("=")[0]
    near = difflib.get_close_matches(option, known, 1)
    return f"{option}: no such option before the command; these are {listed(known)}" + (
        f"; is {near[0]} meant?" if near else ""
    )


def listed(names: Sequence[str]) -> str:
    """Names as a text: `a`, `a and b`, `a, b and c`."""
    return " and ".join([", ".join(names[:-1]), names[-1]] if len(names) > 1 else names)


def check(name: str, asked: Asked) -> None:
    """Raises a Fault unless each part of a command is given once, with an allowed value."""
    command = COMMANDS[name]
    for option, texts in asked.values.items():
        if len(texts) > 1:
            raise Fault(f"--{option} is given {len(texts)} times")
    for option, texts in asked.values.items():
        fault = value_fault(name, option, texts[0])
        if fault:
            raise Fault(f"--{option} {texts[0]}: {fault}")
    missing = [
        f"--{option} {VALUES[option]}" for option in command.options if option not in asked.values
    ]
    if not asked.subjects:
        missing.insert(0, command.subject)
    if missing:
        raise Fault(f"{name} needs {' and '.join(missing)}")
    if len(asked.subjects) > 1:
        raise Fault(
            f"{asked.subjects[1]}: {name} takes one {command.subject}, and {asked.subjects[0]} is that"
        )
    if name == "selfrun" and decimal(asked.subjects[0], MOST_NUMBER) is None:
        raise Fault(f"selfrun {asked.subjects[0]}: NUMBER is decimal, at most {MOST_NUMBER}")


def parse(words: list[str]) -> tuple[str, Asked]:
    """The command of a command line, and its parts. A wrong argument raises a Fault."""
    for word in words:
        try:
            word.encode()
        except UnicodeEncodeError:
            raise Fault(f"{ascii(word)}: an argument isn't UTF-8") from None
    if not words:
        raise Fault("no command is named; --help shows them")
    name = words[0]
    if name.startswith("-"):
        raise Fault(unknown_option_before(name))
    if name not in COMMANDS:
        near = difflib.get_close_matches(name, ALL_COMMANDS, 1)
        hint = f"is {near[0]} meant?" if near else f"the commands are {', '.join(ALL_COMMANDS)}"
        raise Fault(f"{name}: no such command; {hint}")
    asked = sort_out(name, words[1:])
    check(name, asked)
    return name, asked


def files_of(words: list[str]) -> list[tuple[str, str]]:
    """The files in a command line, each with its kind in words. A setup's image isn't among them."""
    name, asked = parse(words)
    command = COMMANDS[name]
    files = [] if name == "selfrun" else [(asked.subjects[0], command.subject.lower())]
    files += [
        (asked.value(option), f"file of --{option}")
        for option in command.options
        if VALUES[option] == "FILE"
    ]
    return files
