"""FP_LOOP and FP_ROUND: what the header refuses, and which records and `nop`s fp_layout makes of
them."""
from __future__ import annotations

import re
import shutil
import struct
import subprocess
from dataclasses import dataclass
from pathlib import Path

import pytest
from fptools.testing.common import TOP, Tool
from elftools.elf.elffile import ELFFile
from fptools.layout.assembly import Assembly, Fault
from fptools.layout.layout import lay_out
from fptools.layout.loop_marks import with_records

HEADER = TOP / "examples/c"
GCC = "riscv64-unknown-elf-gcc -march=rv32im_zicsr -mabi=ilp32".split()
GPP = "riscv64-unknown-elf-g++ -x c++ -march=rv32im_zicsr -mabi=ilp32 -fno-exceptions".split()
CLANG = "clang --target=riscv32-unknown-elf -march=rv32im -mabi=ilp32".split()
CLANGPP = (
    "clang++ -x c++ --target=riscv32-unknown-elf -march=rv32im -mabi=ilp32 -fno-exceptions".split()
)


def name_of(compiler: list[str]) -> str:
    return compiler[0]


COMPILERS = pytest.mark.parametrize("compiler", [GCC, GPP, CLANG, CLANGPP], ids=name_of)
ALL, FALL, STAYS = "all", "fall", "nop"


def compiled(
    compiler: list[str], folder: Path, text: str, *options: str
) -> subprocess.CompletedProcess[str]:
    """Compiles a source to `out` in a folder."""
    if shutil.which(compiler[0]) is None:
        pytest.skip(f"{compiler[0]} isn't installed")
    source = folder / "x.c"
    source.write_text('#include "flexpret.h"\nvolatile uint32_t v;\n' + text)
    command = [
        *compiler,
        "-ffreestanding",
        "-Wall",
        "-Wextra",
        "-I",
        str(HEADER),
        *options,
        "-o",
        str(folder / "out"),
        "x.c",
    ]
    return subprocess.run(command, cwd=folder, capture_output=True, text=True, check=False)


# ---------------------------------------------------------------- the header

LOOP = """\
void f(uint32_t n) { FP_LOOP(i, 8); for (uint32_t i = 0; i < n; i++) { FP_ROUND(i); v += i; } }
"""


@COMPILERS
@pytest.mark.parametrize("level", ["-O0", "-Og", "-O1", "-O2", "-O3", "-Os"])
def test_a_mark_compiles_to_a_nop_without_a_warning(
    tmp_path: Path, compiler: list[str], level: str
) -> None:
    if compiler[0].startswith("clang") and level == "-Og":
        level = "-Oz"
    made = compiled(
        compiler,
        tmp_path,
        LOOP,
        level,
        "-S",
        "-Wpedantic",
        "-Wno-gnu-statement-expression",
        "-Wno-pedantic",
    )
    assert (made.returncode, made.stderr) == (0, "")
    marks = re.findall(r"nop\s*# @fp_flow ([01]) 0 3 8 \d+ i x.c", (tmp_path / "out").read_text())
    assert {"0", "1"} == set(marks)


BAD = {
    "FP_LOOP(i, 0);": "n is at least 1",
    "FP_LOOP(i, -3);": "n is at least 1",
    "FP_LOOP(i, 1048577);": "n is 1,048,576 at most",
    "FP_LOOP(i, 0x100000003ull);": "n is 1,048,576 at most",
    "FP_LOOP(i, 0xffffffffffffffffull);": "n is 1,048,576 at most",
    "FP_LOOP(i, v);": "constant",
    "FP_ROUND(j);": "fp_loop_j",
    "{ FP_LOOP(j, 3); } FP_ROUND(j);": "fp_loop_j",
    "FP_LOOP(j, 3); FP_LOOP(j, 4);": "fp_loop_j",
}


@COMPILERS
@pytest.mark.parametrize("bad", BAD)
def test_what_the_compiler_refuses(tmp_path: Path, compiler: list[str], bad: str) -> None:
    made = compiled(compiler, tmp_path, f"void g(void) {{ {bad} }}\n", "-S")
    assert made.returncode != 0 and BAD[bad] in made.stderr


@COMPILERS
def test_where_a_mark_may_be(tmp_path: Path, compiler: list[str]) -> None:
    """Behind a label, with the largest n, in nested blocks with one name, twice in a line, and in
    a macro."""
    text = """
#define TIMES(k, n) { FP_LOOP(t, n); for (uint32_t i = 0; i < k; i++) { FP_ROUND(t); v += i; } }
void f(uint32_t n)
{
    switch (n) {
    case 1: FP_LOOP(a, 1048576); while (v) FP_ROUND(a);
    }
    { FP_LOOP(a, 3); { FP_LOOP(a, 1ull); FP_ROUND(a); } FP_ROUND(a); }
    TIMES(v, 7) TIMES(n, 7)
}
"""
    made = compiled(compiler, tmp_path, text, "-O2", "-S")
    assert (made.returncode, made.stderr) == (0, "")
    marks = set(re.findall(r"@fp_flow (\d+ \d+ \d+ \d+)", (tmp_path / "out").read_text()))
    numbers = {
        own: [it for it in marks if it.split()[1] == own] for own in {it.split()[1] for it in marks}
    }
    assert len(numbers) == 5 and all(len(it) == 2 for it in numbers.values())


@pytest.mark.parametrize("compiler", [GPP, CLANGPP], ids=name_of)
def test_functions_of_a_template_have_claims_of_their_own(
    tmp_path: Path, compiler: list[str]
) -> None:
    text = """
template <typename T> T each(T n)
{
    FP_LOOP(i, 4);
    for (T i = 0; i < n; i++) { FP_ROUND(i); v = v + 1; }
    return n;
}
uint32_t g() { return each<uint32_t>(v) + each<unsigned char>(3); }
"""
    made = compiled(compiler, tmp_path, text, "-O1", "-std=c++14", "-S")
    assert (made.returncode, made.stderr) == (0, "")
    marks = re.findall(r"@fp_flow (\d+) 0 6 4 (\d+) i", (tmp_path / "out").read_text())
    assert len({function for _, function in marks}) == 2 and len(set(marks)) == 4


def test_an_old_dialect_has_no_marks(tmp_path: Path) -> None:
    made = compiled(GPP, tmp_path, LOOP, "-std=c++11", "-S")
    assert made.returncode != 0 and "FP_LOOP_needs_C_plus_plus_14" in made.stderr
    assert (
        compiled(GPP, tmp_path, "uint32_t g() { return v; }\n", "-std=c++11", "-S").returncode == 0
    )


# ---------------------------------------------------------------- records


@dataclass(frozen=True)
class Record:
    """A record of `.fp_flow`, as the tools read it."""

    kind: int
    number: int
    line: int
    most: int
    unit: int
    name: str
    file: str
    main_file: str


def records(path: Path, section: str = ".fp_flow") -> list[Record]:
    found = []
    with path.open("rb") as file:
        data = b"".join(it.data() for it in ELFFile(file).iter_sections() if it.name == section)
    while data:
        _, kind, number, line, most, unit, _ = struct.unpack_from("<7I", data)
        name, own, main, data = data[28:].split(b"\0", 3)
        found.append(
            Record(kind, number, line, most, unit, name.decode(), own.decode(), main.decode())
        )
    return found


@COMPILERS
def test_records_that_the_compiler_writes(tmp_path: Path, compiler: list[str]) -> None:
    made = compiled(compiler, tmp_path, LOOP, "-O1", "-c", "-DFP_FLOW_DIRECT=7")
    assert (made.returncode, made.stderr) == (0, "")
    found = records(tmp_path / "out")
    assert {(it.kind, it.number, it.line, it.most) for it in found} == {(0, 0, 3, 8), (1, 0, 3, 8)}
    assert {(it.name, it.file, it.main_file) for it in found} == {("i", "x.c", "7:x.c")}
    with (tmp_path / "out").open("rb") as file:
        assert ELFFile(file).get_section_by_name(".fp_flow_units").data() == b"7:x.c\0"


@pytest.mark.parametrize("compiler", [GCC, CLANG], ids=name_of)
def test_records_that_fp_layout_writes(tmp_path: Path, tool: Tool, compiler: list[str]) -> None:
    assert compiled(compiler, tmp_path, LOOP, "-O2", "-g", "-S").returncode == 0
    laid = tool("fp_layout", tmp_path / "out", "-o", tmp_path / "laid.s")
    assert (laid.returncode, laid.stderr) == (0, "")
    subprocess.run([*compiler, "-c", "-o", tmp_path / "laid.o", tmp_path / "laid.s"], check=True)
    found = records(tmp_path / "laid.o")
    assert {(it.kind & 1, it.number, it.line, it.most, it.name, it.file) for it in found} == {
        (0, 0, 3, 8, "i", "x.c"),
        (1, 0, 3, 8, "i", "x.c"),
    }
    assert len({it.unit for it in found}) == 1 and "\tnop" not in (tmp_path / "laid.s").read_text()


def test_units_of_one_file_name_differ(tmp_path: Path) -> None:
    found = []
    for text in (LOOP, LOOP.replace("v += i", "v -= i")):
        assert compiled(GCC, tmp_path, text, "-O2", "-S").returncode == 0
        made = with_records((tmp_path / "out").read_text())
        found.append(set(re.findall(r"\.4byte \S+, \d+, \d+, \d+, \d+, (0x\w+),", made)))
    assert [len(it) for it in found] == [1, 1] and found[0] != found[1]


# ---------------------------------------------------------------- assembler

ASSEMBLER = """\
#include "flexpret.h"
        .text
        .type   fill, @function
fill:   FP_LOOP(word, 16)
        li      t1, 16
again:  FP_ROUND(word)
        addi    t1, t1, -1
        bnez    t1, again
        FP_LOOP(word, 4 + 3)
        li      t1, 7
2:      FP_ROUND(word)
        addi    t1, t1, -1
        bnez    t1, 2b
        ret
        .size   fill, . - fill
"""


def assembled(
    compiler: list[str], folder: Path, text: str, *options: str
) -> subprocess.CompletedProcess[str]:
    (folder / "x.S").write_text(text)
    command = [*compiler, "-I", str(HEADER), *options, "-c", "-o", str(folder / "out"), "x.S"]
    return subprocess.run(command, cwd=folder, capture_output=True, text=True, check=False)


@pytest.mark.parametrize("compiler", [GCC, CLANG], ids=name_of)
@pytest.mark.parametrize("number", [None, 3])
def test_marks_of_assembler(tmp_path: Path, compiler: list[str], number: int | None) -> None:
    """Each mark is a `nop` of its own: nothing that stands behind it changes when it is passed."""
    options = [] if number is None else [f"-DFP_FLOW_DIRECT={number}"]
    assert assembled(compiler, tmp_path, ASSEMBLER, *options).returncode == 0
    found = records(tmp_path / "out")
    marks = [(it.kind, it.number, it.line, it.most, it.name, it.file) for it in found]
    loops = [(0, 1, 4, 16, "word", "x.S"), (0, 2, 9, 7, "word", "x.S")]
    assert marks == [loops[0], (1, *loops[0][1:]), loops[1], (1, *loops[1][1:])]
    unit = f"{number or 1}:x.S"
    assert {it.main_file for it in found} == {unit}
    with (tmp_path / "out").open("rb") as file:
        elf = ELFFile(file)
        assert elf.get_section_by_name(".fp_flow_units").data() == unit.encode() + b"\0"
        words = elf.get_section_by_name(".text").data()
    assert [at for at in range(0, len(words), 4) if words[at : at + 4] == NOP] == [0, 8, 20, 28]
    assert len(words) == (7 + 4) * 4


NOP = bytes.fromhex("13000000")

BAD_ASSEMBLER = {
    "FP_LOOP(x, 0)": "n is at least 1",
    "FP_LOOP(x, 1048577)": "n is 1,048,576 at most",
    "FP_ROUND(y)": "no FP_LOOP of this name is before it",
}


@pytest.mark.parametrize("compiler", [GCC, CLANG], ids=name_of)
@pytest.mark.parametrize("bad", BAD_ASSEMBLER)
def test_what_the_assembler_refuses(tmp_path: Path, compiler: list[str], bad: str) -> None:
    made = assembled(compiler, tmp_path, f"{ASSEMBLER}\n{bad}\n")
    assert made.returncode != 0 and BAD_ASSEMBLER[bad] in made.stderr


# ---------------------------------------------------------------- edges

HEAD = '\t.file\t"code.c"\n\t.option nopic\n\t.attribute arch, "rv32i2p1_m2p0_zicsr2p0"\n\t.text\n'
LOOP_MARK = "nop # @fp_flow 0 0 3 8 0 i x.c"
ROUND_MARK = "nop # @fp_flow 1 0 3 8 0 i x.c"


def by_hand(text: str) -> str:
    return f'#APP\n# 3 "x.c" 1\n\t{text}\n# 0 "" 2\n#NO_APP\n'


def function(code: str) -> str:
    return f"{HEAD}\t.type\tf, @function\nf:\n{code}\t.size\tf, .-f\n"


def made_of(code: str) -> list[str]:
    """What becomes of the marks of a function, in order."""
    text = with_records(function(code))
    assert "@fp_flow" not in text
    found = []
    for record in re.finditer(
        r"^\.Lfp_flow\d+:\n(\tnop\n)?\t\.pushsection.*\n\t\.4byte \S+, (\d+),", text, re.MULTILINE
    ):
        found.append(STAYS if record[1] else FALL if int(record[2]) & 0x100 else ALL)
        assert not record[1] or not int(record[2]) & 0x100
    return found


L, R = by_hand(LOOP_MARK), by_hand(ROUND_MARK)
ADD, RET = "\taddi\ta0,a0,1\n", "\tret\n"
BACK = "\tbne\ta0,a1,.L2\n" + RET
TO_L3 = "\tbeq\ta0,a2,.L3\n"
EDGES = {
    "no label": (ADD + L + ADD + RET, [ALL]),
    "a label before": (ADD + ".L2:\n" + R + ADD + BACK, [ALL]),
    "a label behind": (ADD + L + ".L2:\n" + ADD + BACK, [FALL]),
    "a label that only a debugger has": (ADD + L + ".LBB2:\n.LM9:\n" + ADD + RET, [ALL]),
    "labels on both sides": (ADD + ".L3:\n" + L + ".L2:\n" + ADD + TO_L3 + BACK, [STAYS]),
    "two marks at the head": (ADD + L + ".L2:\n" + R + ADD + BACK, [FALL, ALL]),
    "a label between two marks, and before": (
        ".L3:\n" + L + ".L2:\n" + R + ADD + BACK + "\tj\t.L3\n",
        [STAYS, ALL],
    ),
    "a branch to right behind the mark": ("\tbeq\ta0,a1,.L2\n" + R + ".L2:\n" + ADD + RET, [STAYS]),
    "a branch to right behind a second mark": (
        "\tbeq\ta0,a1,.L2\n" + L + R + ".L2:\n" + ADD + RET,
        [STAYS, FALL],
    ),
    "at the end of the function": (ADD + RET + L, [STAYS]),
    "before an instruction that a linker may delete": (
        ADD + R + "\tlui\ta5,%hi(v)\n.L2:\n" + ADD + BACK,
        [FALL],
    ),
    "before such an instruction, to which a jump leads": (
        ".L2:\n" + R + "\tlui\ta5,%hi(v)\n.L3:\n" + ADD + TO_L3 + BACK,
        [STAYS],
    ),
    "before such an instruction, without a label": (L + "\tlui\ta5,%hi(v)\n" + ADD + RET, [ALL]),
    "behind an instruction that a linker may delete": (
        ".L3:\n\tlui\ta5,%hi(v)\n" + L + ".L2:\n" + ADD + BACK + "\tj\t.L3\n",
        [STAYS],
    ),
    "behind a call": ("\tcall\tg\n" + R + ".L2:\n" + ADD + BACK, [FALL]),
    "before padding": (ADD + R + "\t.p2align 4\n.L2:\n" + ADD + BACK, [FALL]),
    "an asm of plain instructions": (
        ".L2:\n" + by_hand("addi a0,a0,1") + L + ".L3:\n" + ADD + TO_L3 + BACK,
        [FALL],
    ),
    "behind a change of the section": (
        ADD + "\t.section .text.cold\n" + L + ".L2:\n" + ADD + BACK,
        [STAYS],
    ),
    "before a label in a debugger's table": (
        ADD + L + ".L9:\n" + ADD + RET + "\t.section .debug_loc\n\t.4byte .L9\n\t.text\n",
        [ALL],
    ),
    "an address in a table": (
        ADD + L + ".L9:\n" + ADD + RET + "\t.section .rodata\n\t.word .L9\n\t.text\n",
        [FALL],
    ),
}


@pytest.mark.parametrize("name", EDGES)
def test_edges_that_pass_a_mark(name: str) -> None:
    code, expected = EDGES[name]
    assert made_of(code) == expected


ODD = {
    "a label behind a semicolon": "j 9f; nop; 9:",
    "an assignment behind a label": "j 9f\n\tnop\n9:\n\tval = 3",
    "a label of a name": "j own\nown:",
    "a jump to a number": "beq a0, a1, .+8\n\tnop",
    "a jump to a label and a number": "beq a0, a1, own+4\nown: nop",
    "a word that may be a jump": ".word 0x0080006f\n\tnop",
    "an instruction by its fields": ".insn j x0, .+8\n\tnop",
    "an unknown instruction": "own_macro a0",
    "code of another section": '.pushsection .text.own, "ax"\n\tnop\n\t.popsection',
    "no place": ".space 0",
    "a label behind a character": "li a0, '#'; j 9f; nop; 9:",
    "a jump through a register": "jr a0",
}


@pytest.mark.parametrize("name", ODD)
def test_a_nop_stays_beside_an_asm_that_hides_a_label(name: str) -> None:
    asm = by_hand(ODD[name])
    assert made_of(ADD + asm + L + ".L2:\n" + ADD + BACK) == [STAYS]
    assert made_of(ADD + asm + L + ADD + RET) == [ALL]
    if not name.startswith("a label"):
        # An asm that has an unknown label may begin with it.
        assert made_of(".L2:\n" + ADD + R + asm + ".L3:\n" + ADD + TO_L3 + BACK) == [STAYS]


@pytest.mark.parametrize(
    "hidden",
    [
        ".rept 2\n\tnop\n\t.endr",
        ".macro own\n\t.endm",
        ".if 1\n\tnop\n\t.endif",
        "nop /* two\n lines */",
        '.include "own"',
    ],
)
def test_each_nop_of_a_file_stays_where_text_may_be_hidden(hidden: str) -> None:
    assert made_of(by_hand(hidden) + ADD + ADD + L + ".L2:\n" + R + ADD + BACK) == [STAYS, STAYS]


@pytest.mark.parametrize(
    "hidden", [".if 0", ".macro own", ".rept 2", ".irp x, 1, 2", "nop /* open"]
)
def test_a_mark_that_an_asm_may_hide_is_refused(hidden: str) -> None:
    code = function(by_hand(hidden) + ADD + L + ADD + RET)
    with pytest.raises(Fault, match="isn't closed") as fault:
        lay_out(Assembly(code))
    assert "@fp_flow" in code.split("\n")[fault.value.line - 1]


@pytest.mark.parametrize(
    "broken",
    [
        "nop # @fp_flow 0 0 3 8 i x.c",
        "addi a0,a0,1 # @fp_flow 0 0 3 8 0 i x.c",
        "nop; nop # @fp_flow 0 0 3 8 0 i x.c",
    ],
)
def test_a_mark_that_cannot_be_read_is_refused(broken: str, tool: Tool, tmp_path: Path) -> None:
    (tmp_path / "x.s").write_text(function(ADD + by_hand(broken) + ADD + RET))
    ran = tool("fp_layout", tmp_path / "x.s", "-o", tmp_path / "out.s")
    assert (ran.returncode, (tmp_path / "out.s").exists()) == (2, False)
    assert "x.c:3: a loop mark that can't be read" in ran.stderr and ":10:" in ran.stderr


def test_a_symbol_that_a_compiler_defines_hides_nothing() -> None:
    symbols = "\t.bss\n\t.set\t.LANCHOR0,. + 0\n\t.set\tother,f\n"
    assert "\tnop" not in with_records(function(ADD + L + ADD + RET) + symbols)


def test_a_text_of_the_program_is_no_mark() -> None:
    text = function(ADD + RET) + '\t.section .rodata\n\t.string "nop # @fp_flow 0"\n'
    assert with_records(text) == text
