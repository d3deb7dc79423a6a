"""The program's answer to a question: the bound of a section, or a refusal.

    from fptools.program.answers import Bound, read_answer
    from fptools.program.calls import Flexpret

    answer = read_answer(Flexpret.named(None).bound(setup, 0, 0x10, 0x3c).text)
    if isinstance(answer, Bound):
        print(answer.cycles)

docs/COMMANDS.md has the codes and names of refusals."""

import re
from dataclasses import dataclass

BOUND = re.compile(r"bound ([0-9]+)")
REFUSAL = re.compile(r"refused (setup|section|image|source|bound|routines) (\d+) (\w+)(?: (\S+))?")
OF_LINES = ("source", "routines")  # their refusals have the line, the code and the name


class NoAnswer(ValueError):
    """The text is neither a bound nor a refusal."""


@dataclass(frozen=True)
class Bound:
    """No visit of the section takes more cycles."""

    cycles: int


@dataclass(frozen=True)
class Refusal:
    """The first fault of a file, or of a section."""

    what: str  # setup, section, image, source, bound or routines
    code: int
    name: str
    place: str  # a key's path, a byte's offset, a line, or a word's address; empty for a section

    @property
    def address(self) -> int | None:
        """The address of the word that has no bound."""
        is_word = self.what == "bound" and re.fullmatch("[0-9a-f]{8}", self.place)
        return int(self.place, 16) if is_word else None


def read_answer(text: str) -> Bound | Refusal:
    """The bound or the refusal that the program writes; another text is a `NoAnswer`."""
    line = text.strip()
    if found := BOUND.fullmatch(line):
        return Bound(int(found[1]))
    parts = REFUSAL.fullmatch(line)
    is_of_line = parts is not None and parts[1] in OF_LINES
    if parts is None or is_of_line and not (parts[4] and parts[3].isdecimal()):
        raise NoAnswer(f"neither a bound nor a refusal: {line[:80]!r}")
    if is_of_line:
        return Refusal(parts[1], int(parts[3]), parts[4], parts[2])
    return Refusal(parts[1], int(parts[2]), parts[3], parts[4] or "")
