"""How the tables write bytes and numbers."""

import re
from itertools import groupby
from pathlib import Path

TOP = Path(__file__).resolve().parents[2]
UNIT_ROWS = TOP / "crates/test_units/data"
COMMAND_ROWS = TOP / "crates/test_commands/data"

Row = tuple[str, "str | None"]
"""The name of a row, and its difference: empty if there is none, and None if it couldn't be compared."""

ZERO_WORD = "00000000"
ESCAPED = re.compile(rb"\\(x[0-9a-f]{2}|.)", re.DOTALL)
LETTERS = {b"n": b"\n", b"r": b"\r", b"t": b"\t"}


def table(name: str) -> Path:
    """The path of a table, or of a file that its rows read, by its name."""
    path = UNIT_ROWS / name
    return path if path.exists() else COMMAND_ROWS / name


def rows(name: str) -> list[tuple[str, str]]:
    """The answers of a table of lines, each with its call."""
    parts = (line.partition("\t") for line in table(name).read_text().split("\n") if line)
    return [(answer, call) for answer, _, call in parts]


def unescaped(text: str) -> bytes:
    """The bytes of a text in which `\\n`, `\\r`, `\\t`, `\\\\` and `\\x` with two digits stand for one byte each."""

    def one(found: re.Match[bytes]) -> bytes:
        said = found[1]
        return bytes([int(said[1:], 16)]) if len(said) == 3 else LETTERS.get(said, said)

    return ESCAPED.sub(one, text.encode())


def escaped(data: bytes) -> str:
    """The text that `unescaped` reads as some bytes."""
    named = {letter[0]: f"\\{key.decode()}" for key, letter in LETTERS.items()} | {
        ord("\\"): "\\\\"
    }
    return "".join(named.get(b) or (chr(b) if 32 <= b < 127 else f"\\x{b:02x}") for b in data)


def expanded(digits: str) -> bytes:
    """The bytes of hexadecimal digits; a full stop is four bytes of 0."""
    return bytes.fromhex(digits.replace(".", ZERO_WORD))


def repeated(text: str) -> bytes:
    """The bytes of pieces of such digits with spaces between them; `DIGITS*N` is N times the same piece."""
    pieces = (piece.partition("*") for piece in text.split(" "))
    return b"".join(expanded(digits) * int(times or 1) for digits, _, times in pieces)


def words_in_runs(data: bytes) -> str:
    """The words of bytes, each after a space; those that are the same and follow one another as one with its count."""
    words = [data[k : k + 4].hex() for k in range(0, len(data), 4)]
    runs = ((word, len(list(same))) for word, same in groupby(words))
    return "".join(f" {word}" if count == 1 else f" {word}*{count}" for word, count in runs)


def number(text: str) -> int:
    """The number of a word, hexadecimal after `0x`."""
    return int(text, 16) if text.startswith("0x") else int(text)


def numbers(text: str) -> list[int]:
    return [number(word) for word in text.split()]


def truth(value: bool) -> str:
    return "true" if value else "false"
