"""A debugger's tables of functions whose blocks fp_layout has moved: scopes and variables, as the
compiler has them."""
from __future__ import annotations

import re
import shutil
import subprocess
from collections.abc import Sequence
from pathlib import Path

import pytest
from fptools.testing.common import Tool
from fptools.layout.tests.debug_check import compared
from fptools.layout.assembly import Assembly, Fault
from fptools.layout.debug_cells import Stream, Unread, cells, sections
from fptools.layout.layout import Options, lay_out
from fptools.testing.layout_shapes import CLANG, DATA, GCC, Way
from fptools.layout.tests.codes import HEAD, function

NAMES = ("triple", "sw_loop", "calls_in_loop")
LEVELS = ("-O1", "-O2", "-Os", "-Og")
MOVED = """\
\tj\t.L2
.L3:
.LVL1:
\tlw\ta4,0(a1)
.LVL2:
\taddi\ta1,a1,4
.L2:
.LVL3:
\tbne\ta1,a2,.L3
.LVL4:
\tret
.LFE0:
"""
"""A loop that is entered at its test: laid out, the test comes first."""


def needs(*programs: str) -> None:
    for program in programs:
        if shutil.which(program) is None:
            pytest.skip(f"{program} isn't installed")


def compiled(folder: Path, name: str, command: Sequence[str], *options: str) -> str:
    out = folder / f"{name}.s"
    subprocess.run(
        [*command, *options, "-S", "-o", out, DATA / f"{name}.c"], check=True, capture_output=True
    )
    return out.read_text("latin-1")


@pytest.mark.parametrize("version", (4, 5))
@pytest.mark.parametrize("is_clang", (False, True), ids=("gcc", "clang"))
@pytest.mark.parametrize("level", LEVELS)
def test_each_instruction_has_the_compilers_scopes_and_variables(
    tmp_path: Path, level: str, is_clang: bool, version: int
) -> None:
    needs("llvm-dwarfdump", "riscv64-unknown-elf-gcc", *["clang"] * is_clang)
    total = 0
    for name in NAMES:
        text = compiled(
            tmp_path, name, Way(level, True, is_clang=is_clang).compiler(), f"-gdwarf-{version}"
        )
        count, found = compared(tmp_path, text, CLANG if is_clang else GCC)
        assert not found, "; ".join(map(str, found))
        total += count
    assert total > 120


def test_copies_of_a_test_have_its_variables(tmp_path: Path) -> None:
    needs("llvm-dwarfdump", "riscv64-unknown-elf-gcc")
    text = compiled(tmp_path, "isort", Way("-O2", True).compiler(), "-g")
    count, found = compared(tmp_path, text, GCC, Options(rotate=4))
    assert count > 40 and not found, "; ".join(map(str, found))


def test_the_comparison_finds_what_is_wrong(
    tmp_path: Path, monkeypatch: pytest.MonkeyPatch
) -> None:
    needs("llvm-dwarfdump", "riscv64-unknown-elf-gcc")
    monkeypatch.setattr("fptools.layout.debug_ranges.Debugged.pieces", lambda *_: None)
    text = compiled(tmp_path, "isort", Way("-O2", True).compiler(), "-g")
    assert len(compared(tmp_path, text, GCC)[1]) > 10


def test_view_numbers_and_old_versions(tmp_path: Path) -> None:
    needs("llvm-dwarfdump", "riscv64-unknown-elf-gcc")
    for options in (
        ("-g", "-gvariable-location-views"),
        ("-gdwarf-4", "-gvariable-location-views"),
        ("-gdwarf-3",),
    ):
        text = compiled(tmp_path, "isort", Way("-O2", True).compiler(), *options)
        count, found = compared(tmp_path, text, GCC)
        assert count > 40 and not found, f"{options}: " + "; ".join(map(str, found))


# ---------------------------------------------------------------- the directives


def bytes_of(*numbers: object) -> str:
    """Directives: a number is a byte, a label an address."""
    return "".join(
        f"\t.byte\t{it and hex(it)}\n" if isinstance(it, int) else f"\t.4byte\t{it}\n"
        for it in numbers
    )


def listed(entries: str, code: str = MOVED, section: str = ".debug_loclists") -> list[str]:
    """The lines of a section behind its head, of a function that is laid out."""
    head = "\t.4byte\t.Lend-.Lfirst\n.Lfirst:\n\t.2byte\t5\n\t.byte\t4\n\t.byte\t0\n\t.4byte\t0\n"
    head = head if section.endswith("lists") else ""
    text = (
        HEAD
        + function(code)
        + f'\t.section\t{section},"",@progbits\n{head}.LLST0:\n{entries}.Lend:\n'
    )
    lines = lay_out(Assembly(text)).text.splitlines()
    at = lines.index(".LLST0:") + 1
    return [" ".join(line.split()) for line in lines[at : lines.index(".Lend:")]]


def test_a_range_is_split_at_the_borders_of_blocks() -> None:
    made = listed(bytes_of(0x7, ".LVL2", ".LVL4", 0x1, 0x5B, 0))
    # The addition and the test: in the new order the load is between the two.
    assert [it for it in made if not it.startswith(".4byte")] == [
        ".byte 0x7",
        ".byte 0x1",
        ".byte 0x5b",
    ] * 2 + [".byte 0"]
    assert len({it for it in made if it.startswith(".4byte .Lfp")}) == 4


def test_an_address_inside_a_call_stays_inside_of_it() -> None:
    code = MOVED.replace("\taddi\ta1,a1,4\n", "\tcall\tg\n.LVL9:\n\tnop\n")
    made = listed(
        bytes_of(0x7, ".LVL1", ".LVL9-1", 0x1, 0x5B, 0),
        code,
    )
    assert re.fullmatch(r"\.4byte \.Lfp\d+-1", made[2])
    made = listed(
        bytes_of(0x7, ".LVL9-1", ".L2", 0x1, 0x5B, 0),
        code,
    )
    assert re.fullmatch(r"\.4byte \.Lfp\d+-1", made[1]) and not made[2].endswith("-1")


def test_an_empty_range_and_one_of_two_functions_are_dropped() -> None:
    assert listed(bytes_of(0x7, ".LVL3", ".LVL3", 0x1, 0x5B, 0)) == [".byte 0"]
    assert listed(bytes_of(0x7, ".LVL3", ".LVL8", 0x1, 0x5B, 0)) == [".byte 0"]


def test_view_pairs_of_a_moved_range_are_dropped() -> None:
    entry = bytes_of(0x9, 0x3, 0x4, 0x7, "{}", "{}", 0x1, 0x5B)
    made = listed(entry.format(".LVL1", ".LVL2") + entry.format(".LVL30", ".LVL31") + bytes_of(0))
    assert made[0] == ".byte 0x7" and made.count(".byte 0x9") == 1 and made.count(".byte 0x5b") == 2


def test_view_numbers_before_a_list_get_a_pair_for_each_piece() -> None:
    entry = bytes_of(0x7, ".LVL2", ".LVL4", 0x1, 0x5B, 0)
    made = listed(f".LVUS1:\n\t.byte\t0x3\n\t.uleb128\t.LVU7\n.LLST1:\n{entry}")
    assert made[: made.index(".LLST1:")] == [".LVUS1:", *[".byte 0"] * 4]


def test_what_is_in_no_moved_function_stays() -> None:
    entry = bytes_of(0x7, ".LVL30", ".LVL31", 0x1, 0x5B, 0)
    assert listed(entry) == [" ".join(it.split()) for it in entry.splitlines()]


@pytest.mark.parametrize(
    ("entry", "why"),
    [
        (
            bytes_of(0x2, 1, 2, 1, 0x5B, 0),
            "an entry of kind 2",
        ),
        (
            bytes_of(0x8, ".LVL1") + "\t.uleb128\t12\n" + bytes_of(1, 0x5B, 0),
            "the length `12`",
        ),
        (
            bytes_of(0x7, ".LVL1", ".LVL4", 1) + "\t.2byte\t0x5b\n" + bytes_of(0),
            "crosses an end",
        ),
        (
            bytes_of(0x7, ".LVL1", ".LVL4+2", 1, 0x5B, 0),
            "`.LVL4+2`",
        ),
        (bytes_of(0x7, ".LVL1"), "a debugger's table ends too early"),
        ("\t.byte\t0x7\n\t.2byte\t3\n", "`.2byte` in place of 4 bytes"),
        ("\t.float\t3\n", "`.float 3` in a debugger's table isn't known"),
    ],
)
def test_a_table_that_is_not_known_is_refused(entry: str, why: str) -> None:
    with pytest.raises(Fault, match=re.escape(why)) as fault:
        listed(entry)
    assert fault.value.why.endswith(": leave out -g, or try -gdwarf-4")


def test_split_tables_are_refused(tool: Tool, tmp_path: Path) -> None:
    text = HEAD + function(MOVED) + '\t.section\t.debug_info.dwo,"e"\n\t.byte\t0\n'
    (tmp_path / "x.s").write_text(text)
    done = tool("fp_layout", tmp_path / "x.s", "-o", tmp_path / "y.s")
    assert done.returncode == 2 and not (tmp_path / "y.s").exists()
    assert "-gsplit-dwarf puts a debugger's tables into another file: leave it out" in done.stderr


def test_numbers_and_texts_are_read_as_bytes() -> None:
    lines = [
        '\t.section\t.debug_x,"",@progbits',
        '\t.ascii\t"\\214\\001A"',
        "\t.uleb128 0x85",
        "\t.byte\t0x80",
        "\t.byte\t1",
    ]
    lines += ['\t.string\t"a\\"b"', "\t.sleb128 -65", "\t.text", "\t.byte\t3"]
    stream = Stream(cells(lines, sections(lines)[".debug_x"]))
    assert [stream.leb(), stream.fixed(1).number, stream.leb(), stream.leb()] == [
        0x8C,
        ord("A"),
        0x85,
        0x80,
    ]
    stream.skip_string()
    assert stream.next().size == 2 and stream.is_at_end
    with pytest.raises(Unread):
        stream.next()


def test_a_file_may_be_laid_out_twice(tmp_path: Path) -> None:
    needs("llvm-dwarfdump", "riscv64-unknown-elf-gcc")
    text = compiled(tmp_path, "parser", Way("-O2", False).compiler(), "-g")
    once = lay_out(Assembly(text)).text
    assert once != text and lay_out(Assembly(once)).text == once
    count, found = compared(tmp_path, once, GCC, Options(rotate=8))
    assert count > 40 and not found, "; ".join(map(str, found))
