"""The checksums of an executable's sources, as its section .fp_sources has them.

Each object has the lines of `sha256sum` for its sources and headers; a linker puts them one behind
the other. The names are those that the compiler was given, from the folder in which it ran."""

import hashlib
import re
from collections import defaultdict
from pathlib import Path
from typing import Iterable, Mapping

SECTION = ".fp_sources"
LINE = re.compile(rb"(?P<sum>[0-9a-f]{64}) [ *](?P<name>.+)")


class NoRecord(ValueError):
    """The section has other text than lines of `sha256sum`."""


def read_record(data: bytes) -> dict[str, set[str]]:
    """The checksums of each name: several where objects were made from different texts."""
    found: dict[str, set[str]] = defaultdict(set)
    for line in data.replace(b"\0", b"").splitlines():
        parts = LINE.fullmatch(line)
        if parts is None:
            raise NoRecord(f"{line[:80]!r} is no line of sha256sum")
        found[parts["name"].decode("utf-8", "replace")].add(parts["sum"].decode())
    return dict(found)


def checksum(file: Path) -> str:
    return hashlib.sha256(file.read_bytes()).hexdigest()


def sums_of(record: Mapping[str, set[str]], file: Path) -> set[str]:
    """The checksums that a record has of a file; none where it doesn't have it. Of several names the
    longest counts."""
    names = [name for name in record if is_end_of(name, file)]
    return record[max(names, key=lambda name: len(Path(name).parts))] if names else set()


def is_end_of(name: str, file: Path) -> bool:
    """Whether a recorded name may be that of a file: its parts are the last ones of the file's."""
    own, parts = inner_parts(Path(name)), inner_parts(file)
    return bool(own) and parts[-len(own) :] == own


def inner_parts(file: Path) -> tuple[str, ...]:
    """The parts of a name without `.` and `..`, and without what a `..` leads out of."""
    found: list[str] = []
    for part in file.parts:
        if part != "..":
            found.append(part)
        elif found and found[-1] != "/":
            found.pop()
    return tuple(found)


def first_changed(record: Mapping[str, set[str]], found: Mapping[str, Iterable[Path]]) -> str:
    """The first name of a record of which the files that were found don't have each checksum; empty
    where there is none. A name of which no file is found counts only where objects were made from
    different texts of it."""
    for name, sums in sorted(record.items()):
        files = [*found.get(name, ())]
        if files and not sums <= {checksum(it) for it in files} or not files and len(sums) > 1:
            return name
    return ""
