"""Compares a debugger's tables of a laid out program with those in the compiler's order,
instruction by instruction.

llvm-dwarfdump reads the tables. It shares no code with the tools."""
from __future__ import annotations

import re
import subprocess
from collections.abc import Callable, Sequence
from dataclasses import dataclass, field
from pathlib import Path
from unittest.mock import patch

from elftools.elf.elffile import ELFFile
from fptools.layout.assembly import Assembly
from fptools.layout.debug_ranges import Debugged, Moved, Origin
from fptools.layout.layout import Options, lay_out

LINK = (
    "riscv64-unknown-elf-ld", "-m", "elf32lriscv", "-n", "--no-relax", "-e", "0", "-Ttext=0x1000",
    "--unresolved-symbols=ignore-all", "-Tdata=0x20000000", "--section-start=.rodata=0x20008000",
    "--no-warn-rwx-segments",
)  # fmt: skip
END = "end"
"""Behind the number of an instruction's label: the label of the instruction's end."""

DIE = re.compile(r"0x([0-9a-f]{8}):\s+DW_TAG_(\w+)")
RANGE = re.compile(r"\[0x([0-9a-f]{8}), 0x([0-9a-f]{8})\)(?::\s*(.*?))?\)?$")
LOW, HIGH = re.compile(r"DW_AT_low_pc\s+\(0x([0-9a-f]+)"), re.compile(
    r"DW_AT_high_pc\s+\(0x([0-9a-f]+)"
)
WHOLE = re.compile(r"DW_AT_location\s+\((DW_OP.*)\)$")
STATIC = re.compile(r"(DW_OP_addrx?) 0x[0-9a-f]+")


@dataclass
class Entry:
    """An entry with ranges of addresses, and the location in each; a scope has none."""

    tag: str
    ranges: list[tuple[int, int, str]] = field(default_factory=list)

    def at(self, address: int) -> list[str]:
        return [location for first, end, location in self.ranges if first <= address < end]


def entries(executable: Path) -> dict[int, Entry]:
    """The entries with ranges, by their offsets."""
    said = subprocess.run(
        ["llvm-dwarfdump", executable], capture_output=True, text=True, check=True
    ).stdout
    found: dict[int, Entry] = {}
    entry, low = Entry(""), 0
    for line in said.splitlines():
        if begins := DIE.match(line):
            entry = found[int(begins[1], 16)] = Entry(begins[2])
        elif it := RANGE.search(line):
            entry.ranges.append((int(it[1], 16), int(it[2], 16), STATIC.sub(r"\1", it[3] or "")))
        elif it := LOW.search(line):
            low = int(it[1], 16)
        elif it := HIGH.search(line):
            entry.ranges.append((low, int(it[1], 16), ""))
    return {offset: it for offset, it in found.items() if it.ranges}


def labelled(lines: Sequence[str], index: int, name: str) -> str:
    """A line of an instruction between two symbols."""
    by_hand = [it for it in lines[:index] if it.strip() in ("#APP", "#NO_APP")][-1:] == ["#APP"]
    return (
        f"\t.globl {name}, {name}{END}\n{name}:\n{lines[index]}\n{name}{END}:" + "\n#APP" * by_hand
    )


@dataclass
class Pair:
    """An assembly in the compiler's order and laid out, each with a symbol at each instruction of a
    moved function, and the origins of the instructions in the new order, by the numbers in their
    symbols."""

    compiled: str
    laid: str = ""
    origins: dict[int, Origin] = field(default_factory=dict)

    @classmethod
    def of(cls, text: str, options: Options = Options()) -> Pair:
        # An empty range at the first address would be the end of its list, in DWARF 4.
        text = text.replace(".Ltext0:\n", ".Ltext0:\n\tnop\n")
        pair = cls(text)
        lines = text.split("\n")

        class Labelled(Debugged):
            def __init__(
                self, new: list[str], functions: Sequence[Moved], label: Callable[[], str]
            ) -> None:
                super().__init__(new, functions, label)
                for function in functions:
                    pair.origins.update(function.origins)
                    for index in function.origins:
                        new[index] = labelled(new, index, f"new{index}")
                    for line in function.code:
                        lines[line - 1] = labelled(lines, line - 1, f"old{line}")

        with patch("fptools.layout.layout.Debugged", Labelled):
            pair.laid = lay_out(Assembly(text), options).text
        pair.compiled = "\n".join(lines)
        return pair


@dataclass
class Linked:
    """An executable: its entries with ranges, and its symbols."""

    entries: dict[int, Entry]
    symbols: dict[str, int]

    @classmethod
    def of(cls, folder: Path, name: str, text: str, assemble: Sequence[str]) -> Linked:
        source, built, out = (folder / f"{name}.{it}" for it in ("s", "o", "elf"))
        source.write_text(text)
        subprocess.run([*assemble, "-c", "-o", built, source], check=True)
        subprocess.run([*LINK, "-o", out, built], check=True)
        with out.open("rb") as file:
            table = ELFFile(file).get_section_by_name(".symtab").iter_symbols()
            return cls(entries(out), {it.name: it["st_value"] for it in table})

    def state(self, name: str) -> list[dict[int, list[str]]]:
        """The scopes, and the locations of variables, at the first and the last byte of an
        instruction."""
        places = self.symbols[name], self.symbols[name + END] - 1
        return [
            {offset: at for offset, it in self.entries.items() if (at := it.at(place))}
            for place in places
        ]


@dataclass
class Difference:
    """An instruction of the new order whose tables aren't the compiler's, with both."""

    number: int
    origin: Origin
    expected: list[dict[int, list[str]]]
    found: list[dict[int, list[str]]]

    def __str__(self) -> str:
        both = [
            sorted({it for it in {*one, *other} if one.get(it) != other.get(it)})
            for one, other in zip(self.expected, self.found)
        ]
        return f"new{self.number} of {self.origin}: " + ", ".join(
            f"{offset:#x}" for at in both for offset in at
        )


def compared(
    folder: Path, text: str, assemble: Sequence[str], options: Options = Options()
) -> tuple[int, list[Difference]]:
    """The number of instructions of moved functions, and those whose tables differ."""
    pair = Pair.of(text, options)
    old, new = Linked.of(folder, "old", pair.compiled, assemble), Linked.of(
        folder, "new", pair.laid, assemble
    )
    found = []
    for number, origin in sorted(pair.origins.items()):
        states = [old.state(f"old{line}") for line in origin if line]
        if not states:
            continue
        expected = [
            {
                offset: at
                for offset, at in one.items()
                if all(it[k].get(offset) == at for it in states)
            }
            for k, one in enumerate(states[0])
        ]
        shown = new.state(f"new{number}")
        is_added = len(origin) > 1
        if shown != expected and not (
            is_added and all(it.items() <= other.items() for it, other in zip(shown, expected))
        ):
            found.append(Difference(number, origin, expected, shown))
    return len(pair.origins), found
