"""The tokens of a line of a source, or its leftmost fault."""

from dataclasses import dataclass
from enum import Enum
from string import ascii_letters, digits, hexdigits

from model.bits import LAST_WORD

MOST_TOKENS = 64

NAME_BEGINS = frozenset((ascii_letters + "_.").encode())
NAME_GOES_ON = NAME_BEGINS | frozenset(digits.encode())
DIGITS, HEX_DIGITS = frozenset(digits.encode()), frozenset(hexdigits.encode())
MARKS = frozenset(b",:()+-")
BLANKS = frozenset(b" \t")
COMMENT = ord("#")


class Kind(Enum):
    NAME = "Name"
    NUMBER = "Number"
    MARK = "Mark"


class LexNo(Enum):
    """Faults of a line."""

    BadChar = 1
    BadNumber = 2
    TooMany = 3


@dataclass(frozen=True)
class Token:
    """The bytes from `start` to below `end`; the value of a number, or the byte of a mark."""

    kind: Kind
    start: int
    end: int
    value: int
    text: bytes

    def is_mark(self, mark: str) -> bool:
        return self.kind == Kind.MARK and self.value == ord(mark)


class LexFault(Exception):
    """The leftmost fault of a line, with its column from 0 on."""

    def __init__(self, code: LexNo, column: int) -> None:
        super().__init__(code, column)
        self.code, self.column = code, column


def end_of_run(line: bytes, at: int, allowed: frozenset[int]) -> int:
    """The first index from `at` on whose byte isn't allowed, or the length."""
    while at < len(line) and line[at] in allowed:
        at += 1
    return at


def number_token(line: bytes, start: int) -> Token:
    """The number that begins at an index."""
    is_hex = line[start : start + 2] == b"0x"
    first, allowed, base = (start + 2, HEX_DIGITS, 16) if is_hex else (start, DIGITS, 10)
    end = end_of_run(line, first, allowed)
    figures = line[first:end].lstrip(b"0") or b"0"
    is_whole = end > first and (end == len(line) or line[end] not in NAME_BEGINS)
    if not is_whole or len(figures) > 10 or int(figures, base) > LAST_WORD:
        raise LexFault(LexNo.BadNumber, start)
    return Token(Kind.NUMBER, start, end, int(figures, base), line[start:end])


def token_at(line: bytes, start: int) -> Token:
    """The token that begins at an index."""
    byte = line[start]
    if byte in NAME_BEGINS:
        end = end_of_run(line, start, NAME_GOES_ON)
        return Token(Kind.NAME, start, end, 0, line[start:end])
    if byte in DIGITS:
        return number_token(line, start)
    if byte in MARKS:
        return Token(Kind.MARK, start, start + 1, byte, line[start : start + 1])
    raise LexFault(LexNo.BadChar, start)


def tokens(line: bytes) -> list[Token]:
    """The tokens of a line, which has no line end; raises LexFault."""
    found: list[Token] = []
    at = end_of_run(line, 0, BLANKS)
    while at < len(line) and line[at] != COMMENT:
        token = token_at(line, at)
        if len(found) == MOST_TOKENS:
            raise LexFault(LexNo.TooMany, at)
        found.append(token)
        at = end_of_run(line, token.end, BLANKS)
    return found
