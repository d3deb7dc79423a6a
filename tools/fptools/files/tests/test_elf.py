"""What executables say of addresses, and files that are none."""
from __future__ import annotations

from pathlib import Path

import pytest
from fptools.testing.common import TOP, Tool
from fptools.files.elf import Line, Program, ProgramError, linked, pieces_of

LOOPS = TOP / "tools/fptools/testing/loops.elf"
MACHINE, KIND, CLASS = 18, 16, 4


def at(number: int) -> Line:
    return Line(Path("code.c"), number)


def test_lines_of_functions_that_the_linker_dropped_are_not_those_of_others() -> None:
    rows = [(0, at(1)), (0x28, None), (0xC, at(2)), (0x20, None), (0x20, at(3)), (0x40, None)]
    dropped, *others = pieces_of(rows)
    assert list(linked([dropped, *others])) == others
    assert list(linked([dropped])) == [dropped]
    assert list(linked([[(0, at(1)), (0, at(2)), (0, None)], *others])) == others


def test_lines_of_a_start_at_0_beside_others_count() -> None:
    pieces = list(pieces_of([(0, at(1)), (0xC, None), (0xC, at(2)), (0x20, None)]))
    assert list(linked(pieces)) == pieces


def test_a_name_of_two_functions_is_no_address() -> None:
    program = Program()
    program.symbols = [(0x10, "init"), (0x10, "init"), (0x40, "step"), (0x80, "step")]
    assert program.address("init+4") == 0x14
    with pytest.raises(ProgramError, match="step is at 0x40 and 0x80: give the number"):
        program.address("step")


def test_a_number_may_begin_with_zeros_and_has_an_end() -> None:
    assert Program().address("010") == 10
    for text in ("9" * 5000, "0x" + "f" * 5000, "\u0664"):
        with pytest.raises(ProgramError, match="is no address"):
            Program().address(text)


@pytest.mark.parametrize(("offset", "byte"), [(MACHINE, 62), (KIND, 1), (KIND, 3), (CLASS, 2)])
def test_an_executable_of_another_machine_or_kind(tmp_path: Path, offset: int, byte: int) -> None:
    data = bytearray(LOOPS.read_bytes())
    data[offset] = byte
    (tmp_path / "other.elf").write_bytes(data)
    with pytest.raises(ProgramError):
        Program(tmp_path / "other.elf")


def test_a_cut_file_is_told_wherever_it_is_cut(tmp_path: Path) -> None:
    data = LOOPS.read_bytes()
    for length in range(0, len(data), 97):
        (tmp_path / "cut.elf").write_bytes(data[:length])
        with pytest.raises(ProgramError):
            Program(tmp_path / "cut.elf")


def test_a_cut_file_is_no_fault_of_the_tool(tool: Tool, tmp_path: Path) -> None:
    cut = tmp_path / "cut.elf"
    cut.write_bytes(LOOPS.read_bytes()[:1000])
    ran = tool("fp_loops", cut, "--from", "0", "--to", "8")
    assert (ran.returncode, ran.stderr) == (
        2,
        f"fp_loops: {cut} is no ELF file: String Table not found\n",
    )
