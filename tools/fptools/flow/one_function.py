"""Whether some code is of one function of the sources, though it has several names, or lines of
several units.

A linker may fold functions of the same code. Then one of them would have the loop marks of another.
Three kinds of code only look like that: the constructor of a class, which has two names in C++, and
its destructor; a function with an alias; and an inline function, whose lines are in each unit that
compiles it, while the linker keeps the code of one."""

import re
from collections import defaultdict
from collections.abc import Collection, Iterator, Mapping, Sequence
from dataclasses import dataclass
from pathlib import Path

from fptools.untyped import Dwarf, Values


PART = re.compile(
    r"(?P<size>[1-9]\d*)|L[a-z]n?\d+E|S[0-9A-Z]*_|S[a-z]|T[0-9A-Z]*_|A\d+_"
    r"|(?P<twin>[CD][12])(?=E)|[A-Za-z]"
)
"""A part of a C++ name: the size of an identifier behind it, a number among the arguments of a
template, a substitution, a parameter, an array, a constructor or destructor, or a letter."""

ORIGINS = ("DW_AT_abstract_origin", "DW_AT_specification")


def without_twins(name: str) -> str:
    """A C++ name with one name for both constructors, C1 and C2, and for both destructors; the name
    itself where it isn't read."""
    if not name.startswith("_ZN"):
        return name
    found, at = [], 0
    while at < len(name):
        part = PART.match(name, at) if at else re.compile("_ZN").match(name)
        if part is None:
            return name
        end = part.end()
        if at and part["size"]:
            end += int(part["size"])
        text = name[at:end]
        found.append(f"{text[0]}*" if at and part["twin"] else text)
        at = end
    return "".join(found)


def is_one(names: Sequence[str], aliases: Mapping[str, str]) -> bool:
    """Whether all names of an address are of one function, by the aliases of the sources. The
    function itself has to be one of the names: aliases of two local functions of one name may be
    at one address too."""
    own = (it if aliases.get(it) not in names else aliases[it] for it in names)
    return len({*map(without_twins, own)}) == 1 and len({*names}) == len(names)


@dataclass(frozen=True)
class Origin:
    """Where a function is in the sources, and its name for a linker."""

    name: str
    file: Path
    line: int


def origins_of(units: Collection[Dwarf], file_of: Dwarf) -> dict[int, list[Origin | None]]:
    """The functions of units of debug information by their first addresses; None for one that can't
    be an inline function of C++, of which a linker keeps one copy. `file_of` gives the file of a
    unit's number."""
    found: dict[int, list[Origin | None]] = defaultdict(list)
    for unit in units:
        for entry in unit.iter_DIEs():
            low = entry.attributes.get("DW_AT_low_pc")
            if entry.tag == "DW_TAG_subprogram" and low is not None:
                found[low.value].append(_origin(unit, entry, file_of))
    return found


def _origin(unit: Dwarf, entry: Dwarf, file_of: Dwarf) -> Origin | None:
    known: Values = {}
    for it in _chain(entry):
        known = {**it.attributes, **known}
    needed = ("DW_AT_linkage_name", "DW_AT_decl_file", "DW_AT_decl_line", "DW_AT_external")
    if not all(it in known for it in needed):
        return None
    name, number, line = (known[it].value for it in needed[:3])
    return Origin(name.decode(), file_of(unit, number), line) if name[:2] == b"_Z" else None


def _chain(entry: Dwarf) -> Iterator[Dwarf]:
    """An entry, and those that it refers to for what it doesn't say."""
    yield entry
    while origin := next((it for it in ORIGINS if it in entry.attributes), None):
        entry = entry.get_DIE_from_attribute(origin)
        yield entry
