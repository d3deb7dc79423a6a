"""Names of addresses: the labels of a map that fp_asm wrote, or the symbols of an executable."""

import re
import sys
from functools import cached_property
from pathlib import Path
from typing import Mapping

from fptools.files.elf import Line, Program, ProgramError, Row

HEADER = re.compile(r"# map of (?P<source>.+): address, line, labels")
ROW = re.compile(r"(?P<at>[0-9a-f]{8}) (?P<line>\d+)(?P<labels>(?: [A-Za-z_.][\w.]*)*)")


class Mapped(Program):
    """The labels and source lines of a map. It has no words and no functions."""

    def __init__(self, path: Path) -> None:
        super().__init__()
        self.path: Path = path
        self._rows: list[Row] = []
        header, *rows = path.read_text(encoding="utf-8", errors="replace").splitlines() or [""]
        named = HEADER.fullmatch(header)
        if named is None:
            raise ProgramError(f"{path} is no map: fp_asm writes one by --map")
        source = self.source = path.parent / named["source"]
        self.lines = [header, *rows]
        for number, row in enumerate(rows, 2):
            parts = ROW.fullmatch(row)
            if parts is None:
                raise ProgramError(f"{path}:{number}: no address, line and labels: {row!r}")
            at = int(parts["at"], 16)
            self._rows.append((at, Line(source, int(parts["line"]))))
            self.symbols += [(at, name) for name in parts["labels"].split()]
        self.symbols.sort()

    @property
    def has_functions(self) -> bool:
        return False

    @cached_property
    def _lines(self) -> list[Row]:
        return sorted(self._rows, key=lambda row: row[0])

    def look_at(self, image: Mapping[int, int], name: Path) -> str:
        """Compares the map with an image, by the source of the map. Raises `ProgramError` where the map isn't of the image's
        source. Answers why they can't be compared; empty where they agree."""
        from fptools.asm.places import SourceFault
        from fptools.asm.source import map_lines, read_source

        cannot = f"whether {self.path} is of {name} can't be compared: {self.source}"
        try:
            source = read_source(self.source)
        except OSError as fault:
            return f"{cannot}: {fault.strerror}"
        except SourceFault as fault:
            return f"{cannot}:{fault.line}: {fault.code.name}"
        is_same = self.lines == [*map_lines(source, self.path.parent)]
        if source.words == image:
            if is_same:
                return ""
            raise ProgramError(
                f"{self.path} isn't the map of {self.source}: `flexpret asm -o IMAGE --map FILE` makes it again"
            )
        if is_same:
            raise ProgramError(
                f"{self.path} is the map of {self.source}, and {name} has other words: name the map of its own source"
            )
        return f"{cannot} has changed since the map was written"


def named_by(elf: Path | None, labels: Path | None) -> Program:
    """The names of an executable or of a map; none of either without both."""
    if elf and labels:
        raise ProgramError("--elf and --map: names are of one of them")
    program = Mapped(labels) if labels else Program(elf)
    program.names_need = "an executable or a map: give --elf FILE or --map FILE"
    return program


def compare_map(program: Program, image: Mapping[int, int], name: Path, tool: str) -> None:
    """Compares names with an image, if they are of a map. Raises `ProgramError` where the map is of another one; where they
    can't be compared, the tool reports why."""
    why = program.look_at(image, name) if isinstance(program, Mapped) else ""
    if why:
        print(f"{tool}: {why}", file=sys.stderr)


def names_at(program: Program) -> dict[int, str]:
    """A name for each address that has one: the first by the alphabet."""
    names: dict[int, str] = {}
    for at, name in program.symbols:
        names.setdefault(at, name)
    return names
