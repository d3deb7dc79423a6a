"""The command line of the view: the faults that can be found before the program is built."""

from typing import Sequence

from fptools.launch.arguments import BEFORE_VIEW, Asked, Fault, option_of, unknown_option_before
from fptools.limits import MOST_CYCLES, MOST_PICTURE

MOST_CYCLE = MOST_CYCLES - 3
"""The largest end of a window, in cycles."""

FORMS = ("konata", "vcd", "svg")
OPTIONS = {
    "from": "CYCLE",
    "to": "CYCLE",
    "konata": "FILE",
    "vcd": "FILE",
    "svg": "FILE",
    "progress": "UNTIL",
}
FLAG = "--state"
"""The option without a value. It is for text only."""


def unknown_option(word: str) -> str:
    return f"{word}: the options are {', '.join([*(f'--{one}' for one in OPTIONS), FLAG])}"


def parse(words: Sequence[str]) -> Asked:
    """The parts of the arguments. A wrong one raises a Fault; the program may still find one."""
    if not words:
        raise Fault("no command is named; --help shows them")
    if words[0].startswith("-"):
        raise Fault(unknown_option_before(words[0], BEFORE_VIEW))
    if words[0] != "turns":
        raise Fault(f"{words[0]}: no such command; the commands are turns and show")
    asked = Asked()
    left = iter(words[1:])
    for word in left:
        if word == FLAG:
            asked.values["state"] = [""]
        elif word.startswith("--"):
            option, value = option_of(word, left, OPTIONS, unknown_option)
            if option in asked.values:
                raise Fault(f"--{option} is given twice")
            asked.values[option] = [value]
            look_at_value(option, value)
        else:
            asked.subjects.append(word)
    if fault := missing(asked) or window_fault(asked):
        raise Fault(fault)
    return asked


def form_of(asked: Asked) -> str | None:
    """The form that isn't text."""
    return next((form for form in FORMS if form in asked.values), None)


def look_at_value(option: str, value: str) -> None:
    """Raises a Fault if the value of an option isn't allowed."""
    if OPTIONS[option] == "CYCLE" and not (
        value.isascii() and value.isdigit() and int(value) <= MOST_CYCLE
    ):
        raise Fault(f"--{option} {value}: a cycle is decimal, at most {MOST_CYCLE}")
    if option == "progress" and value not in ("before", "all"):
        raise Fault(f"--progress {value}: it is before or all")


def missing(asked: Asked) -> str | None:
    """The fault of a part that is missing or given twice, or None."""
    absent = [
        *([] if asked.subjects else ["SETUP"]),
        *(f"--{one} CYCLE" for one in ("from", "to") if one not in asked.values),
    ]
    if absent:
        return f"turns needs {' and '.join(absent)}"
    if len(asked.subjects) > 1:
        return f"{asked.subjects[1]}: turns takes one SETUP, and {asked.subjects[0]} is that"
    forms = [f"--{form}" for form in (*FORMS, "state") if form in asked.values]
    return f"{' and '.join(forms)}: one form at a time" if len(forms) > 1 else None


def window_fault(asked: Asked) -> str | None:
    """The fault of the window, or None."""
    first, end = int(asked.value("from")), int(asked.value("to"))
    if first >= end:
        return f"--from {first} --to {end}: --from is below --to"
    if "svg" in asked.values and end - first > MOST_PICTURE:
        return f"--from {first} --to {end}: a picture has at most {MOST_PICTURE} cycles"
    return None
