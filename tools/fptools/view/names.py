"""The symbols and source lines of the turns of a view, by an executable or a map."""

from dataclasses import dataclass

from fptools.files.elf import Program
from fptools.files.sources import Sources
from fptools.files.trace import CAUSES
from fptools.view.rows import Turn


@dataclass(frozen=True)
class Names:
    """The names of a program's addresses, and the texts of its lines."""

    program: Program
    sources: Sources

    @property
    def is_known(self) -> bool:
        return self.program.path is not None

    def at(self, turn: Turn) -> str:
        """The symbol of a turn's address, with the distance."""
        return "" if turn.is_flushed else printable(self.program.name_of(turn.event.pc))

    def source(self, turn: Turn) -> str:
        """The source line of a turn, with its text where the source is found."""
        line = None if turn.is_flushed else self.program.line_of(turn.event.pc)
        if line is None:
            return ""
        return printable(f"{line} {self.sources.text(line).strip()}").rstrip()


def printable(text: str) -> str:
    """A text with blanks for its control characters, which a picture may not have."""
    return "".join(it if it.isprintable() else " " for it in text)


def cause_of(turn: Turn) -> str:
    """The name of the cause of a turn's trap; empty if it doesn't trap."""
    cause = turn.event.cause
    return "" if cause is None else CAUSES.get(cause, "unknown")
