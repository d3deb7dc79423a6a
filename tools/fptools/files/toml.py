"""TOML files with a message of their own for each way in which they can't be read."""

import re
import tomllib
from pathlib import Path

from fptools.untyped import Values

LINE = re.compile(r"\(at line (\d+), column \d+\)$")


class TomlError(ValueError):
    """The file is no TOML document, from a line on."""

    def __init__(self, path: Path, line: int, text: str) -> None:
        super().__init__(f"{path}:{line}: {text}")
        self.line, self.text = line, text


def read_toml(path: Path, most: int | None = None) -> tuple[str, Values]:
    """The text of a document of so many bytes at most, and its values. A byte order mark is passed over."""
    data = path.read_bytes()
    if most is not None and len(data) > most:
        raise TomlError(path, 1, f"has {len(data)} bytes, of {most} at most")
    try:
        text = data.decode("utf-8-sig")
    except UnicodeDecodeError as fault:
        raise TomlError(
            path, data.count(b"\n", 0, fault.start) + 1, f"isn't UTF-8: {fault.reason}"
        ) from fault
    try:
        return text, tomllib.loads(text)
    except tomllib.TOMLDecodeError as fault:
        raise TomlError(path, _line_of(text, str(fault)), str(fault)) from fault
    except RecursionError as fault:
        raise TomlError(path, 1, "its lists or tables nest too deep") from fault
    except ValueError as fault:
        raise TomlError(path, 1, "a number has too many digits") from fault


def _line_of(text: str, fault: str) -> int:
    """The line that the message of a fault names, or the last."""
    place = LINE.search(fault)
    return int(place[1]) if place else len(text.rstrip("\n").split("\n"))
