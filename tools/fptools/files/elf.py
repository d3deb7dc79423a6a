"""An executable's words, symbols and source lines. Reading a file needs pyelftools."""

import io
import re
from bisect import bisect_right
from dataclasses import dataclass
from functools import cached_property
from pathlib import Path
from typing import Collection, Iterable, Iterator, Mapping

from fptools.files.image import words_of
from fptools.flow.one_function import Origin, origins_of
from fptools.files.checksums import SECTION, NoRecord, read_record
from fptools.untyped import Dwarf

# Without an executable nothing here needs pyelftools: the methods that read one import it.

CODE_END = 0x1_0000
ASSEMBLER = (".s", ".S", ".asm")
ADDRESS = re.compile(
    r"(?P<name>[A-Za-z_.$][\w.$]*)?(?P<plus>\+)?(?P<number>0x[0-9a-fA-F]{1,16}|[0-9]{1,20})?"
)


class ProgramError(Exception):
    """The file is no executable, or a name isn't one of its symbols."""


class NoCall(Exception):
    """An inlined function without the line of its call: strict DWARF 2 has no attribute for it, and -gsplit-dwarf keeps
    it in another file."""


@dataclass(frozen=True, order=True)
class Function:
    """The words of a function: from its first address up to below `end`."""

    start: int
    end: int
    name: str


@dataclass(frozen=True)
class Line:
    """A line of a source."""

    file: Path
    number: int

    def __str__(self) -> str:
        return f"{self.file.name}:{self.number}"


@dataclass(frozen=True)
class Inlined:
    """The addresses of a function that was put in place of a call, and the line of that call."""

    start: int
    end: int
    call: Line


# From which address on a line counts, or none.
Row = tuple[int, Line | None]


class Program:
    """A static ELF32 executable; without a file, one that has no words, symbols and lines."""

    names_need = "an executable: give --elf FILE"  # the advice if there are names and no file

    def __init__(self, path: Path | None = None) -> None:
        self.path = path
        self.words: dict[int, int] = {}
        self.functions: list[Function] = []
        self.symbols: list[tuple[int, str]] = []
        self.knows_functions = True  # whether it is known which functions were inlined
        self.record: dict[
            str, set[str]
        ] | None = None  # the checksums of its sources by their names, where it has them
        self._files: list[str] = []  # the names of its sources, or of its objects
        self.has_local_symbols = False  # whether names are kept that are local to a source
        if path is None:
            return
        from fptools.files.pyelf import FAULTS, ELFError, ELFFile

        try:
            with path.open("rb") as file:
                self._read(ELFFile(file))
        except ELFError as fault:
            raise ProgramError(f"{path} is no ELF file: {fault}") from fault
        except FAULTS as fault:
            raise ProgramError(f"{path} is a broken ELF file: {fault}") from fault

    def _read(self, elf: Dwarf) -> None:
        from fptools.files.pyelf import SymbolTableSection

        kind = elf.elfclass, elf.little_endian, elf["e_machine"], elf["e_type"]
        if kind != (32, True, "EM_RISCV", "ET_EXEC"):
            raise ProgramError(f"{self.path} is no static executable of RISC-V with 32 bits")
        for segment in elf.iter_segments():
            if segment["p_type"] == "PT_LOAD":
                self.words |= words_of(segment.data(), segment["p_vaddr"])
        for section in elf.iter_sections():
            if isinstance(section, SymbolTableSection):
                self._take_symbols(section)
            elif section.name == SECTION:
                self._take_record(section.data())
        self.functions.sort()
        self.symbols.sort()

    def _take_record(self, data: bytes) -> None:
        try:
            self.record = read_record(data)
        except NoRecord as fault:
            raise ProgramError(
                f"{self.path}: section {SECTION}: {fault}: build it again by `make`"
            ) from fault

    def _take_symbols(self, table: Dwarf) -> None:
        for symbol in table.iter_symbols():
            at, size, kind = symbol["st_value"], symbol["st_size"], symbol["st_info"]["type"]
            if kind == "STT_FILE":
                self._files.append(symbol.name)
            is_local = symbol["st_info"]["bind"] == "STB_LOCAL" and kind not in (
                "STT_SECTION",
                "STT_FILE",
            )
            self.has_local_symbols |= is_local and bool(symbol.name)
            is_label = kind == "STT_NOTYPE" and not symbol.name.startswith((".L", "$"))
            if symbol["st_shndx"] == "SHN_UNDEF" or not symbol.name or at >= CODE_END:
                continue
            if kind == "STT_FUNC" or is_label and symbol["st_shndx"] != "SHN_ABS":
                self.symbols.append((at, symbol.name))
            if kind == "STT_FUNC" and size:
                self.functions.append(Function(at, at + size, symbol.name))

    def section_data(self, name: str) -> bytes:
        """The bytes of a section of the file; none where it has no such section."""
        if self.path is None:
            return b""
        from fptools.files.pyelf import FAULTS, ELFError, ELFFile

        try:
            with self.path.open("rb") as file:
                section = ELFFile(file).get_section_by_name(name)
                return b"" if section is None else bytes(section.data())
        except (ELFError, *FAULTS) as fault:
            raise ProgramError(f"{self.path} is a broken ELF file: {fault}") from fault

    @property
    def has_functions(self) -> bool:
        """Whether it is of a file that may have functions."""
        return self.path is not None

    @property
    def is_compiled(self) -> bool:
        """Whether a part of it may be compiled: the names of its files aren't all of assembler, or it has none."""
        return not self._files or any(not name.endswith((".o", *ASSEMBLER)) for name in self._files)

    def name_of(self, address: int) -> str:
        """The symbol at or below an address of code, with the distance; empty where there is none."""
        index = bisect_right(self.symbols, address, key=lambda symbol: symbol[0]) - 1
        if index < 0 or address >= CODE_END:
            return ""
        at, name = self.symbols[index]
        return name if at == address else f"{name}+{address - at:#x}"

    def other_word(self, image: Mapping[int, int]) -> str:
        """The first word that an image has otherwise, by its address and name; empty where there is none."""
        for at in sorted({*image, *self.words}):
            if self.words.get(at, 0) != image.get(at, 0):
                return f"{at:#x} {self.name_of(at)}".rstrip()
        return ""

    def address(self, text: str) -> int:
        """The address of a number, of a symbol, or of a symbol and a number after `+`."""
        parts = ADDRESS.fullmatch(text)
        if (
            not text
            or parts is None
            or bool(parts["plus"]) != bool(parts["name"] and parts["number"])
        ):
            raise ProgramError(f"{text} is no address: a number, NAME or NAME+NUMBER")
        digits = parts["number"] or "0"
        number = int(digits, 16 if digits.startswith("0x") else 10)
        if not parts["name"]:
            return number
        named = self.named(parts["name"])
        if not named and self.path is None:
            raise ProgramError(f"{parts['name']} is a name, and names need {self.names_need}")
        if not named:
            raise ProgramError(
                f"{parts['name']} is no symbol of code in {self.path}{self._why_no_symbol(parts['name'])}"
            )
        if len(named) > 1:
            raise ProgramError(
                f"{parts['name']} is at {' and '.join(map(hex, named))}: give the number"
            )
        return named[0] + number

    def named(self, name: str) -> list[int]:
        """The addresses that have a name."""
        return sorted({at for at, it in self.symbols if it == name})

    def _why_no_symbol(self, name: str) -> str:
        """Why a name of the sources is no symbol, where that is known: a compiler inlines functions, and makes clones of them."""
        clones = sorted({symbol for _, symbol in self.symbols if symbol.startswith(f"{name}.")})
        if clones:
            return f": the compiler made {' and '.join(clones)} of it; __attribute__((noipa)) prevents that"
        if name in self.function_names:
            return ": the compiler inlined it, or left it out; __attribute__((noinline)) keeps a function"
        return ""

    def function_at(self, address: int) -> Function | None:
        """The function in which an address lies."""
        return next((it for it in self.functions if it.start <= address < it.end), None)

    def function(self, text: str) -> Function:
        """The function that has an address, which is given in a form that `address` reads."""
        if not self.has_functions:
            raise ProgramError(f"{text}: functions need an executable: give --elf FILE")
        found = self.function_at(self.address(text))
        if found is None:
            raise ProgramError(f"{text} is in no function of {self.path}")
        return found

    def line_of(self, address: int) -> Line | None:
        """The source line that an address was compiled from, where the executable has such lines (-g)."""
        index = bisect_right(self._lines, address, key=lambda row: row[0]) - 1
        line = self._lines[index][1] if index >= 0 else None
        # A compiler gives line 0 to code that comes from no line.
        return line if line is not None and line.number else None

    def lines_of(self, address: int) -> list[Line]:
        """The line of an address, and for the code of inlined functions the lines of their calls."""
        own = self.line_of(address)
        calls = [it.call for it in self._inlined if it.start <= address < it.end]
        return ([own] if own else []) + calls

    @property
    def all_lines(self) -> list[Line]:
        """The source lines that some address was compiled from."""
        return sorted(
            {line for _, line in self._lines if line is not None},
            key=lambda it: (it.file, it.number),
        )

    @cached_property
    def _inlined(self) -> list[Inlined]:
        if self.path is None:
            return []
        from fptools.files.pyelf import FAULTS, DWARFError, ELFError, ELFFile

        with self.path.open("rb") as file:
            elf = ELFFile(file)
            if not elf.has_dwarf_info():
                return []
            try:
                dwarf = elf.get_dwarf_info()
                return [it for unit in dwarf.iter_CUs() for it in _inlined_of(dwarf, unit)]
            except (ELFError, DWARFError, NoCall, *FAULTS):
                self.knows_functions = (
                    False  # a form of DWARF that isn't known: each address has its own line
                )
                return []

    @cached_property
    def folders(self) -> list[Path]:
        """The folders in which its units were compiled, as far as it names them."""
        tops = (unit.get_top_DIE().attributes for unit in self._debug_units)
        return sorted(
            {Path(it["DW_AT_comp_dir"].value.decode()) for it in tops if "DW_AT_comp_dir" in it}
        )

    @cached_property
    def function_names(self) -> frozenset[str]:
        """The names of the functions of its sources, of those that were inlined too (-g)."""
        dies = (die for unit in self._debug_units for die in unit.iter_DIEs())
        named = (it.attributes for it in dies if it.tag == "DW_TAG_subprogram")
        return frozenset(it["DW_AT_name"].value.decode() for it in named if "DW_AT_name" in it)

    @cached_property
    def _debug_units(self) -> list[Dwarf]:
        """Its units of debug information (-g); none where they have a form that isn't known."""
        if self.path is None:
            return []
        from fptools.files.pyelf import FAULTS, DWARFError, ELFError, ELFFile

        try:
            elf = ELFFile(io.BytesIO(self.path.read_bytes()))
            units = list(elf.get_dwarf_info().iter_CUs()) if elf.has_dwarf_info() else []
            for unit in units:
                list(unit.iter_DIEs())
        except (ELFError, DWARFError, *FAULTS):
            return []
        return units

    def is_shared(self, address: int) -> bool:
        """Whether a word is of several functions, as a linker may fold those of the same code. The copies of an inline
        function in several units are one function."""
        spans = [(it[0][0], it[-1][0]) for it in self._pieces if it[0][0] <= address < it[-1][0]]
        if len(spans) < 2:
            return False
        known = self._origins.get(spans[0][0], [])
        is_one = len(known) == len(spans) and len({*known}) == 1 and None not in known
        return len({*spans}) > 1 or not is_one

    @cached_property
    def _origins(self) -> Mapping[int, list[Origin | None]]:
        """The functions of the sources, by their first addresses."""

        def file_of(unit: Dwarf, number: int) -> Path:
            folder = unit.get_top_DIE().attributes.get("DW_AT_comp_dir")
            table = unit.dwarfinfo.line_program_for_CU(unit).header
            return _file_of(table, number, Path(folder.value.decode()) if folder else Path())

        return origins_of(self._debug_units, file_of)

    @property
    def has_lines(self) -> bool:
        """Whether it has line tables (-g)."""
        return bool(self._lines)

    @cached_property
    def _lines(self) -> list[Row]:
        """The lines, each with the address from which it counts; None from the end of a piece that was compiled together."""
        # Where one unit ends another may begin: its line counts.
        return sorted(
            (row for piece in self._pieces for row in piece),
            key=lambda row: (row[0], row[1] is not None),
        )

    @cached_property
    def _pieces(self) -> list[list[Row]]:
        """The rows of the pieces that were compiled together."""
        if self.path is None:
            return []
        from fptools.files.pyelf import FAULTS, DWARFError, ELFError, ELFFile

        try:
            with self.path.open("rb") as file:
                elf = ELFFile(file)
                dwarf = elf.get_dwarf_info() if elf.has_dwarf_info() else None
                units = dwarf.iter_CUs() if dwarf else ()
                return list(
                    linked([it for unit in units for it in pieces_of(_rows_of(dwarf, unit))])
                )
        except (ELFError, DWARFError, *FAULTS) as fault:
            # Version 0.29 of pyelftools has no form for the checksums of files that clang writes.
            text = "has line tables that pyelftools can't read; -gdwarf-4 gives others"
            raise ProgramError(f"{self.path} {text}") from fault


def other_word(program: Program, image: Mapping[int, int]) -> str:
    """The first word of an image that the executable has otherwise; empty where there is none."""
    if program.path is None:
        return ""
    word = program.other_word(image)
    return f"{word}: the image isn't made of {program.path}: make it again by `elf`" if word else ""


def pieces_of(rows: Iterable[Row]) -> Iterator[list[Row]]:
    """The rows of each piece that was compiled together, up to its end, which is the row without a line."""
    piece: list[Row] = []
    for row in rows:
        piece.append(row)
        if row[1] is None:
            yield piece
            piece = []


def linked(pieces: Collection[list[Row]]) -> Iterator[list[Row]]:
    """Those that are in the executable: a piece that a linker drops (--gc-sections) has lines only at address 0, or from there
    on, where others are."""
    whole = [piece for piece in pieces if piece[0][0] < piece[-1][0]]
    for piece in whole:
        if piece[0][0] != 0 or not any(it[0][0] < piece[-1][0] for it in whole if it is not piece):
            yield piece


def _rows_of(dwarf: Dwarf, unit: Dwarf) -> Iterator[Row]:
    """The rows of a unit's line table."""
    table = dwarf.line_program_for_CU(unit)
    if table is None:
        return
    folder = unit.get_top_DIE().attributes.get("DW_AT_comp_dir")
    base = Path(folder.value.decode()) if folder else Path()
    for entry in table.get_entries():
        state = entry.state
        if state is None:
            continue
        line = Line(_file_of(table, state.file, base), state.line)
        yield state.address, None if state.end_sequence else line


def _inlined_of(dwarf: Dwarf, unit: Dwarf) -> Iterator[Inlined]:
    """The inlined functions of a unit, a piece for each range of addresses."""
    table = dwarf.line_program_for_CU(unit)
    top = unit.get_top_DIE()
    folder = top.attributes.get("DW_AT_comp_dir")
    base = Path(folder.value.decode()) if folder else Path()
    if top.attributes.keys() & {"DW_AT_GNU_dwo_name", "DW_AT_dwo_name", "DW_AT_GNU_dwo_id"}:
        raise NoCall
    for entry in unit.iter_DIEs():
        known = entry.attributes
        if entry.tag != "DW_TAG_inlined_subroutine":
            continue
        if not {"DW_AT_call_file", "DW_AT_call_line"} <= known.keys():
            raise NoCall
        line = Line(
            _file_of(table.header, known["DW_AT_call_file"].value, base),
            known["DW_AT_call_line"].value,
        )
        for start, end in _ranges_of(dwarf, unit, entry):
            yield Inlined(start, end, line)


def _ranges_of(dwarf: Dwarf, unit: Dwarf, entry: Dwarf) -> Iterator[tuple[int, int]]:
    """The ranges of addresses of an entry."""
    known = entry.attributes
    if "DW_AT_low_pc" in known and "DW_AT_high_pc" in known:
        low, high = known["DW_AT_low_pc"].value, known["DW_AT_high_pc"]
        yield low, high.value if high.form == "DW_FORM_addr" else low + high.value
    if "DW_AT_ranges" not in known:
        return
    top = unit.get_top_DIE().attributes.get("DW_AT_low_pc")
    base = top.value if top else 0
    ranges = dwarf.range_lists()
    for piece in ranges.get_range_list_at_offset(known["DW_AT_ranges"].value, unit):
        if hasattr(piece, "base_address"):
            base = piece.base_address
            continue
        is_absolute = getattr(piece, "is_absolute", False)
        yield (piece.begin_offset, piece.end_offset) if is_absolute else (
            base + piece.begin_offset,
            base + piece.end_offset,
        )


def _file_of(table: Dwarf, number: int, base: Path) -> Path:
    """The name of a file in a line table: version 5 counts files and folders from 0, those before from 1."""
    from_zero = table["version"] >= 5
    entry = table["file_entry"][number if from_zero else number - 1]
    folders = table["include_directory"]
    index = entry.dir_index if from_zero else entry.dir_index - 1
    folder = Path(folders[index].decode()) if 0 <= index < len(folders) else Path()
    return base / folder / str(entry.name.decode())
