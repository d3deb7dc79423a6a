"""What fp_refusal says of the program's refusals."""
from __future__ import annotations

from pathlib import Path
from random import Random

import pytest
from fptools.testing.common import TOP, Tool
from fptools.asm.places import Placed, SourceFault
from fptools.asm.tokens import SourceNo
from fptools.asm.faults import explain_source, shown
from fptools.testing.modelled import program


def fault_of(data: bytes) -> SourceFault | None:
    """The fault of a source, as the assembler has it, but for too many segments."""
    try:
        Placed(data).words
    except SourceFault as found:
        return found
    return None


def explanation(source: str) -> list[str]:
    data = source.encode()
    fault = fault_of(data)
    assert fault is not None
    return list(shown("x.s", data, explain_source(data, fault.line, fault.code)))


@pytest.mark.parametrize(
    ("source", "text", "mark", "hint"),
    [
        ("nop\n adi x1, x1, 1\n", "x.s:2:2: error: unknown mnemonic 'adi'", "|  ^~~", "did you mean andi or addi or div?"),
        (" ADDI x1, x1, 1", "x.s:1:2: error: unknown mnemonic 'ADDI'", " ^~~~", "mnemonics are in lower case: addi rd, rs1, number"),
        (" foo", "x.s:1:2: error: unknown mnemonic 'foo'", " ^~~", "a label has a colon: foo:"),
        (" bgt x1, x2, 0", "x.s:1:2: error: unknown mnemonic 'bgt'", " ^~~", "bgt a, b, to is blt b, a, to"),
        (" .text", "x.s:1:2: error: unknown directive '.text'", " ^~~~~", "a source has no sections and no options: leave the line out"),
        (" addi x1, x1", "x.s:1:13: error: expected a comma, found the end of the line", "             ^", "the form is: addi rd, rs1, number"),
        (" addi x1, y1, 1", "x.s:1:11: error: expected a register (x0 to x31, or a name as a0), found 'y1'", "^~", "the form is: addi"),
        (" csrw mtvek, t0", "x.s:1:7: error: expected a CSR (a name as mtvec, or a number), found 'mtvek'", "^~~~~", "did you mean mtvec?"),
        (" lw x5, x2", "x.s:1:9: error: expected an offset and a base register, as 4(sp), found 'x2'", "^~", "lw rd, offset(base)"),
        (" lw x5, 4(x2", "x.s:1:13: error: expected ')', found the end of the line", "^", "lw rd, offset(base)"),
        (" nop x1", "x.s:1:6: error: expected no operand, found 'x1'", "^~", "the form is: nop"),
        ("1: nop", "x.s:1:1: error: expected a mnemonic or a directive, found '1'", "^", "a label begins with a letter, _ or ."),
        (" addi x1, x1, 5000", "x.s:1:15: error: 5000 isn't -2,048 to 2,047", "^~~~", "li sets a register to any number"),
        ("\tlw\tx5, -3000(x1)", "x.s:1:9: error: -3000 isn't -2,048 to 2,047", "\t  \t    ^~~~~~~~~", "la or li gives the address"),
        (" .org 2", "x.s:1:7: error: 2 is no multiple of 4", "^", ""),
        (" j lop\nloop: nop", "x.s:1:4: error: no label 'lop'", "^~~", "did you mean loop?"),
        (" beq x1, x2, t0", "x.s:1:14: error: no label 't0'", "^~", "t0 is a register, and an address is expected here"),
        ("a: .space 8192\n bne x1, x2, a", "x.s:2:14: error: 0x0 is -8,192 bytes away, and bne leads -4,096 to 4,094", "^", "branch over a j"),
        (" j 3", "x.s:1:4: error: 0x3 is no multiple of 4", "^", ""),
        (" li x1, 0x1ffffffff", "x.s:1:9: error: '0x1ffffffff' is no number", "^~~~~~~~~~~", "a number is decimal, or 0x"),
        (" nop ; no", "x.s:1:6: error: ';' begins no name, number or mark", "^", "a comment begins with #"),
        (" .org 0x4000\n nop", "x.s:2:2: error: the word at 0x4000 is outside of the scratchpads", "^~~", "words lie from 0 to 0x3ffc"),
        (" .space 16384\n li x1, 5", "x.s:2:2: error: the word at 0x4000 is outside", "^~~~~~~", "words lie from 0"),
    ],
)  # fmt: skip
def test_a_source(source: str, text: str, mark: str, hint: str) -> None:
    lines = explanation(source)
    assert lines[0].startswith(text)
    assert mark in lines[2]
    assert hint in "\n".join(lines[3:])


def test_a_second_line_that_plays_a_part() -> None:
    assert explanation("a: nop\nb: nop\na: nop\n")[-2:] == [
        "x.s:1: it is here first",
        "    1 | a: nop",
    ]
    assert explanation(" nop\n.org 0\n nop")[-2:] == [
        "x.s:1: it is placed here first",
        "    1 |  nop",
    ]


def test_faults_of_a_whole_source() -> None:
    many = "".join(f".org {8 * index}\nnop\n" for index in range(17)).encode()
    assert (
        list(shown("x.s", many, explain_source(many, 0, SourceNo.TooManySegments)))[0]
        == "x.s: error: 17 runs of words with a gap between them, of 16 at most"
    )
    long = b" " * 1_048_577
    assert "has 1048577 bytes" in explain_source(long, 0, SourceNo.TooLong).text


@pytest.mark.parametrize("seed", range(8))
def test_each_fault_of_changed_sources_has_its_place(seed: int) -> None:
    """Whatever is wrong with a line, its fault is explained, at a column that the line has."""
    draws = Random(seed)
    texts = [path.read_bytes() for path in sorted(TOP.glob("examples/*.s")) if path.stem != "big"]
    pieces = [
        b"",
        b"x",
        b"(",
        b"0x",
        b",",
        b" x3 ",
        b"99999",
        b"loop",
        b":",
        b"#",
        b"\t",
        b"-",
        b"mret ",
        b".word ",
        b".org ",
    ]
    explained = 0
    for _ in range(150):
        data = bytearray(draws.choice(texts))
        for _ in range(draws.randrange(1, 4)):
            at = draws.randrange(len(data))
            data[at : at + draws.randrange(4)] = draws.choice(pieces)
        fault = fault_of(bytes(data))
        if fault is None:
            continue
        explained += 1
        found = explain_source(bytes(data), fault.line, fault.code)
        assert found.line == fault.line and found.column is not None and found.width > 0
        assert found.column <= len(bytes(data).split(b"\n")[fault.line - 1])
        assert list(shown("x.s", bytes(data), found))
    assert explained > 50


def explained(tool: Tool, *words: object, given: str = "") -> list[str]:
    ran = tool("fp_refusal", *words, given=given)
    assert (ran.returncode, ran.stderr) == (0, "")
    return ran.stdout.splitlines()


def test_a_bound_by_a_map(tool: Tool, tmp_path: Path) -> None:
    names = tmp_path / "sum.map"
    assert tool("fp_asm", "examples/sum.s", "examples/sum.fpx", "--map", names).returncode == 0
    words = ("--setup", "examples/sum.toml", "--map", names)
    assert explained(tool, "refused bound 3 TimedWait 00000040", *words) == [
        "sum.s:18: error: TimedWait at 0x40 sum+0x1c: wu x11, x10",
        "   18 |         wu   x11, x10",
        "      = a wait takes as long as its moment says: end the section before it, and begin another behind",
    ]
    lines = explained(tool, "refused", "bound", "4", "UnboundedBackEdge", "00000034", *words)
    assert (
        "      = [[loop]] head = 0x24, last = 0x34 or further, bound = how often it goes back at most"
        in lines
    )
    assert lines[-1] == "examples/sum.toml:29: loop[0] is 0x24 to 0x34, bound = 7"


def test_a_bound_by_an_executable(tool: Tool) -> None:
    words = ("--setup", "examples/c/pid.toml", "--elf", "examples/c/pid.elf")
    lines = explained(tool, "refused bound 10 Escape 000000c0", *words)
    assert lines[0] == "error: Escape at 0xc0 step_begin+0xc: ee x15, x14"
    assert "-fno-optimize-sibling-calls" in lines[1]


@pytest.mark.parametrize(
    ("word", "hint"),
    [("ret", "a return: end the section before it"), ("mret", "a handler's return"), ("jalr ra, 0(a0)", "a call through a register"),
     ("jr a0", "a switch by a table (-fno-jump-tables)")],
)  # fmt: skip
def test_jumps_through_registers(tool: Tool, tmp_path: Path, word: str, hint: str) -> None:
    from fptools.testing.modelled import make

    made = make(tmp_path, f"        {word}\n", 0)
    assert (
        hint in explained(tool, "refused bound 2 IndirectJump 00000000", "--setup", made.setup)[1]
    )


def test_an_overflow_has_no_place(tool: Tool) -> None:
    assert explained(tool, "refused bound 6 Overflow 18446744073709551616")[0].startswith(
        "error: the bound is 18,446,744,073,709,551,616 cycles"
    )


def test_setups_and_sections(tool: Tool, tmp_path: Path) -> None:
    setup = tmp_path / "it.toml"
    text = (TOP / "examples/sum.toml").read_text()
    setup.write_text(text.replace('"S", "S", "S"', '"T5", "S", "X"'))
    allowed = "['T0', 'T1', 'T2', 'T3', 'T4', 'T5', 'T6', 'T7', 'S', 'D']"
    assert explained(tool, "refused setup 7 BadSlot slots[3]", "--setup", setup) == [
        f"{setup}:13: error: slots[3]: 'X' is not one of {allowed}"
    ]
    setup.write_text(text.replace('mode = "hard"', 'mode = "hard'))
    assert explained(tool, "refused setup 2 Toml -", "--setup", setup)[0].startswith(
        f"{setup}:22: error: "
    )
    setup.write_text(text.replace('mode = "hard"', 'mode = "soft"'))
    lines = explained(tool, "refused section 1 NotHard", "--setup", setup, "--thread", "0")
    assert lines == [
        f'{setup}:22: error: T0: a bound and `solo` are of a thread that starts hard and awake: mode = "hard"'
    ]
    lines = explained(tool, "refused section 1 NotHard", "--setup", setup, "--thread", "5")
    hint = 'T5: no [[thread]] has id = 5: it starts asleep; add a table with mode = "hard" and an entry'
    assert lines == [f"{setup}: error: {hint}"]
    assert explained(tool, "refused section 3 Order")[0].startswith(
        "error: --to isn't above --from"
    )


def test_images_and_routines(tool: Tool, tmp_path: Path) -> None:
    lines = explained(tool, given="refused image 2 Magic 0\n", *("--setup", "examples/sum.toml"))
    assert lines[0] == "examples/sum.fpx: error: Magic at byte 0"
    lines = explained(tool, "refused image 40 BadLoad 52", "--file", "x.elf")
    assert lines[0] == "x.elf: error: BadLoad at byte 52" and "flexpret.ld" in lines[1]
    listed = tmp_path / "routines"
    listed.write_text("00000100 00000104\n100 104\n")
    assert explained(tool, "refused routines 2 2 BadLine", "--file", listed)[:2] == [
        f"{listed}:2: error: BadLine",
        "    2 | 100 104",
    ]


@pytest.mark.parametrize(
    ("words", "error"),
    [
        (("bound 12",), "no refusal line: 'bound 12'"),
        (("refused source 1 3 UnknownName",), "the source is needed: --file SOURCE"),
        (("refused setup 7 BadSlot slots[3]",), "the setup is needed: --setup SETUP"),
        (
            ("refused source 900 3 UnknownName", "--file", "examples/sum.s"),
            "this program has no such refusal, or the file has changed since",
        ),
        (
            ("refused source 2 3 UnknownName", "--file", "none.s"),
            "[Errno 2] No such file or directory: 'none.s'",
        ),
        (("refused image 99 What 0",), "this program has no such refusal"),
    ],
)
def test_what_cannot_be_explained(tool: Tool, words: tuple[str, ...], error: str) -> None:
    ran = tool("fp_refusal", *words)
    assert (ran.returncode, ran.stdout) == (2, "")
    assert ran.stderr.startswith(f"fp_refusal: {error}")


def test_each_name_of_a_refusal_is_known() -> None:
    """The tables have each name that the model's tables have."""
    from fptools.program import refusals
    from model.refusals import BoundNo, ElfNo, ImageNo, RoutinesNo, SectionNo

    assert {it.name for it in SectionNo} <= refusals.SECTION_HINTS.keys()
    assert {it.name for it in (*ImageNo, *ElfNo)} <= refusals.IMAGE_HINTS.keys()
    assert {it.name for it in RoutinesNo} <= refusals.ROUTINES_HINTS.keys()
    assert {it.name for it in BoundNo} <= refusals.BOUND_HINTS.keys() | {"IndirectJump", "Overflow"}


def test_the_program_s_own_line_is_explained(tool: Tool, tmp_path: Path) -> None:
    import subprocess

    source = tmp_path / "it.s"
    source.write_text("        nop\n        adi x1, x1, 1\n")
    ran = subprocess.run(
        [program(tmp_path), "asm", source], capture_output=True, text=True, check=False
    )
    assert ran.returncode == 5
    assert (
        explained(tool, "--file", source, given=ran.stdout)[0]
        == f"{source}:2:9: error: unknown mnemonic 'adi'"
    )
