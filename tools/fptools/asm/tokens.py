"""The tokens of a line of a source, and the codes of refused sources. docs/FORMATS.md has their rules."""

import re
from dataclasses import dataclass
from enum import Enum, IntEnum

MOST_TOKENS = 64
TOKEN = re.compile(
    rb"(?P<NAME>[A-Za-z_.][\w.]*)|(?P<NUMBER>0x[0-9A-Fa-f]*|[0-9]+)|(?P<MARK>[,:()+-])", re.A
)
BLANK = re.compile(rb"[ \t]*")
FIGURES = 10
"""The most figures of a number behind leading zeros."""


class SourceNo(IntEnum):
    """Why a source is refused, as the program numbers it."""

    TooLong = 1
    Lex = 2
    UnknownName = 3
    Operands = 4
    OutOfRange = 5
    DoubleLabel = 6
    NoLabel = 7
    Misaligned = 8
    OutsideMemory = 9
    Overlap = 10
    TooManySegments = 11


class LineFault(Exception):
    """The fault of a line."""

    def __init__(self, code: SourceNo) -> None:
        super().__init__(code)
        self.code = code


class Lex(Enum):
    """Faults of tokens."""

    CHAR = 1
    NUMBER = 2
    TOO_MANY = 3


class LexFault(LineFault):
    """The leftmost token with a fault, by its column from 0 on."""

    def __init__(self, why: Lex, column: int) -> None:
        super().__init__(SourceNo.Lex)
        self.why, self.column = why, column


@dataclass(frozen=True)
class Token:
    """The bytes of a line from `start` to below `end`."""

    kind: str  # NAME, NUMBER or MARK
    text: str
    start: int
    end: int

    def is_mark(self, mark: str) -> bool:
        return self.kind == "MARK" and self.text == mark

    @property
    def value(self) -> int:
        """Of a number."""
        return int(self.text, 16 if self.text.startswith("0x") else 10)


def _token_at(line: bytes, at: int) -> Token:
    found = TOKEN.match(line, at)
    if found is None:
        raise LexFault(Lex.CHAR, at)
    kind, text, end = str(found.lastgroup), found[0].decode(), found.end()
    if kind == "NUMBER":
        figures = text.removeprefix("0x").lstrip("0")
        follows = TOKEN.match(line, end)
        is_run_in = follows is not None and follows.lastgroup == "NAME"
        if (
            text == "0x"
            or is_run_in
            or len(figures) > FIGURES
            or Token(kind, text, at, end).value >= 2**32
        ):
            raise LexFault(Lex.NUMBER, at)
    return Token(kind, text, at, end)


def tokens(line: bytes) -> list[Token]:
    """The tokens of a line up to a comment. A fault is a `LexFault`."""
    found: list[Token] = []
    at = _end_of_blank(line, 0)
    while at < len(line) and line[at] != ord("#"):
        token = _token_at(line, at)
        if len(found) == MOST_TOKENS:
            raise LexFault(Lex.TOO_MANY, at)
        found.append(token)
        at = _end_of_blank(line, token.end)
    return found


def _end_of_blank(line: bytes, at: int) -> int:
    blank = BLANK.match(line, at)
    return blank.end() if blank else at


def lines_of(source: bytes) -> list[bytes]:
    """The lines without their ends, which are line feeds; a carriage return before one is dropped."""
    *whole, last = source.split(b"\n")
    return [line.removesuffix(b"\r") for line in whole] + ([last] if last else [])
