"""The files of fp_layout: a debugger's tables, messages, the comparison with the source, and the time it takes."""
from __future__ import annotations

import os
import resource
import subprocess
import sys
from pathlib import Path

import pytest
from hypothesis import given, settings
from hypothesis import strategies as st
from fptools.testing.common import TOOLS, Tool
from fptools.layout.assembly import Assembly, Fault, statements
from fptools.layout.blocks import Block, Branch, body_of
from fptools.layout.layout import Options, lay_out
from fptools.layout.same_flow import do_the_same
from fptools.layout.tests.codes import (
    HEAD,
    LOOP_AT_END,
    big_function,
    code_of,
    function,
    laid,
    mark,
)


def test_lines_move_with_their_blocks() -> None:
    code = """\
\t.loc 1 3 1 is_stmt 1
\tj\t.L2
.L3:
\t.loc 1 5 9
\tlw\ta4,0(a1)
\t.loc 1 4 20 is_stmt 0 discriminator 3
\taddi\ta1,a1,4
.L2:
\tbne\ta1,a2,.L3
\t.loc 1 7 1 is_stmt 1
\tret
"""
    made = code_of(laid(code).text.replace("\t.loc", "\tloc"))[1:]
    assert made == [
        ".L2:", "loc 1 4 20 is_stmt 0", "beq a1,a2,.Lfp1", ".L3:", "loc 1 5 9 is_stmt 1", "lw a4,0(a1)",
        "loc 1 4 20 discriminator 3 is_stmt 0", "addi a1,a1,4", "j .L2", ".Lfp1:", "loc 1 7 1 is_stmt 1", "ret",
    ]  # fmt: skip


def test_the_flag_of_the_line_table_is_left_as_the_compiler_leaves_it() -> None:
    code = "\t.loc 1 3 1\n\tbeq\ta0,zero,.L3\n.L2:\n\t.loc 1 4 1 is_stmt 0\n\tret\n.L3:\n\t.loc 1 5 1 is_stmt 1\n\tnop\n\tj\t.L2\n"
    text = laid(code).text
    assert text.index(".loc 1 4 1 is_stmt 0") > text.index(".loc 1 5 1 is_stmt 1")
    assert text.splitlines()[-2].split() == [".loc", "1", "5", "1", "is_stmt", "1"]


def test_views_of_variables_stay_where_they_are_named() -> None:
    code = "\t.loc 1 3 1 view -0\n\tj\t.L2\n.L3:\n\t.loc 1 5 9 view .LVU3\n\tnop\n.L2:\n\t.loc 1 6 1 view 0\n\tbne\ta1,a2,.L3\n\tret\n"
    text = laid(code, Options(rotate=4)).text
    assert text.count("view .LVU3") == text.count("view") == 1


def test_frames_of_moved_blocks_are_restated() -> None:
    code = """\
\t.cfi_startproc
\tbeq\ta0,zero,.L4
\taddi\tsp,sp,-16
\t.cfi_def_cfa_offset 16
\tsw\tra,12(sp)
\t.cfi_offset 1, -4
\tj\t.L2
.L4:
\t.cfi_def_cfa_offset 0
\t.cfi_restore 1
\tret
.L2:
\t.cfi_def_cfa_offset 16
\t.cfi_offset 1, -4
\tcall\tg
\tbeq\ta0,zero,.L2
\tlw\tra,12(sp)
\t.cfi_restore 1
\taddi\tsp,sp,16
\t.cfi_def_cfa_offset 0
\tj\t.L4
\t.cfi_endproc
"""
    made = [" ".join(line.split()) for line in laid(code).text.splitlines()]
    at = made.index("jal g")
    assert made[made.index("addi sp,sp,-16") + 1 : at] == [
        ".cfi_def_cfa_offset 16",
        "sw ra,12(sp)",
        ".cfi_offset 1, -4",
        ".L2:",
    ]
    assert made[-3:] == ["ret", ".cfi_endproc", ".size f, .-f"]


def test_an_unknown_frame_is_lost_and_told() -> None:
    code = "\t.cfi_startproc\n\t.cfi_escape 0x16\n" + LOOP_AT_END + "\t.cfi_endproc\n"
    made = laid(code)
    assert [it.text for it in made.notes] == [
        "f: its call frames are lost for a debugger: `.cfi_escape 0x16` isn't known"
    ]
    assert ".cfi_escape" not in made.text and ".cfi_endproc" in made.text


def test_labels_of_a_debugger_stay() -> None:
    code = ".LFB0:\n.LVL0:\n\tj\t.L2\n.L3:\n.LBB4:\n\tnop\n.LBE4:\n\tcall\tg\n.LVL1:\n.L2:\n\tbne\ta1,a2,.L3\n\tret\n.LFE0:\n"
    made = code_of(laid(code).text)
    assert all(
        f"{label}:" in made for label in (".LFB0", ".LVL0", ".LBB4", ".LBE4", ".LVL1", ".LFE0")
    )
    assert made[made.index("jal g") + 1] == ".LVL1:" and made[-1] == ".LFE0:"


@pytest.mark.parametrize(
    ("text", "why"),
    [
        (
            "int f(void) { return 3; }\n",
            "there is no function: is it what gcc or clang writes with -S?",
        ),
        ("", "there is no function: is it what gcc or clang writes with -S?"),
        (HEAD + "start:\n\tj start\n", "there is no function"),
        (function("\tret\n"), "it isn't assembly for RISC-V that gcc or clang wrote"),
        (
            function("\tret\n") + '\t.ident\t"GCC: 12"\n',
            "it isn't assembly for RISC-V that gcc or clang wrote",
        ),
        (
            HEAD.replace("zicsr", "c") + function("\tret\n"),
            "it is for rv32i2p1_m2p0_c2p0: compile with -march=rv32im_zicsr",
        ),
        (
            HEAD.replace("rv32", "rv64") + function("\tret\n"),
            "it is for rv64i2p1_m2p0_zicsr2p0: compile with",
        ),
        (
            HEAD + function("\tret\n").replace("\t.size", "# "),
            "function f has no `.size`: is the file whole?",
        ),
        ("\x7fELF\0\0", "it is no text: fp_layout reads what gcc or clang writes with -S"),
    ],
)
def test_what_is_no_assembly_of_a_compiler(tool: Tool, tmp_path: Path, text: str, why: str) -> None:
    (tmp_path / "x.s").write_text(text)
    ran = tool("fp_layout", tmp_path / "x.s", "-o", tmp_path / "y.s")
    (line,) = ran.stderr.splitlines()
    assert why in line and line.startswith(f"fp_layout: {tmp_path}/x.s:")
    assert ran.returncode == 2 and ran.stdout == "" and not (tmp_path / "y.s").exists()


def test_standard_input_and_output(tool: Tool) -> None:
    text = HEAD + function(LOOP_AT_END)
    assert (
        tool("fp_layout", given=text).stdout == tool("fp_layout", "-", "-o", "-", given=text).stdout
    )
    ran = tool("fp_layout", given="nothing")
    assert (ran.returncode, ran.stdout) == (2, "")
    assert ran.stderr.startswith("fp_layout: standard input: there is no function")


def test_files_that_are_not_there_or_take_nothing(tool: Tool, tmp_path: Path) -> None:
    for words in ((tmp_path / "none.s",), (tmp_path,)):
        ran = tool("fp_layout", *words)
        assert (
            ran.returncode == 2
            and len(ran.stderr.splitlines()) == 1
            and str(tmp_path) in ran.stderr
        )
    (tmp_path / "x.s").write_text(HEAD + function(LOOP_AT_END))
    ran = tool("fp_layout", tmp_path / "x.s", "-o", tmp_path / "no" / "y.s")
    assert (
        ran.returncode == 2 and f"{tmp_path}/no" in ran.stderr and len(ran.stderr.splitlines()) == 1
    )
    ran = subprocess.run(
        f"{sys.executable} {TOOLS}/fp_layout {tmp_path}/x.s > /dev/full",
        shell=True,
        capture_output=True,
        text=True,
        check=False,
    )
    assert ran.returncode == 2 and "No space left" in ran.stderr and "Traceback" not in ran.stderr


def test_a_file_is_written_at_once_and_keeps_its_mode(tool: Tool, tmp_path: Path) -> None:
    source, out = tmp_path / "x.s", tmp_path / "y.s"
    source.write_text(HEAD + function(LOOP_AT_END))
    out.write_text("old")
    out.chmod(0o640)
    (tmp_path / "link.s").symlink_to(out)
    assert tool("fp_layout", source, "-o", tmp_path / "link.s").returncode == 0
    assert (
        out.stat().st_mode & 0o777 == 0o640
        and ".Lfp1" in out.read_text()
        and (tmp_path / "link.s").is_symlink()
    )
    assert tool("fp_layout", out, "-o", out).returncode == 0
    assert sorted(it.name for it in tmp_path.iterdir()) == ["link.s", "x.s", "y.s"]


def test_bytes_beyond_ascii_stay(tmp_path: Path, tool: Tool) -> None:
    (tmp_path / "x.s").write_bytes(
        (HEAD + function(LOOP_AT_END)).encode() + b'\t.string "caf\xc3\xa9\xff"\n'
    )
    assert tool("fp_layout", tmp_path / "x.s", "-o", tmp_path / "y.s").returncode == 0
    assert (tmp_path / "y.s").read_bytes().endswith(b'"caf\xc3\xa9\xff"\n')


def test_usage(tool: Tool) -> None:
    ran = tool("fp_layout", "--help")
    assert ran.returncode == 0 and "--section A:B" in ran.stdout
    for words in (
        ("--section", "a"),
        ("--rotate", "-1"),
        ("--copies", "x"),
        ("a.s", "b.s"),
        ("--what",),
    ):
        assert tool("fp_layout", *words).returncode == 2


@st.composite
def garbled(draw: st.DrawFn, text: str) -> str:
    """A text with lines that are cut, moved, doubled, dropped or misspelt."""
    lines = text.split("\n")
    for _ in range(draw(st.integers(1, 5))):
        at = draw(st.integers(0, len(lines) - 1))
        other = draw(st.integers(0, len(lines) - 1))
        cut = draw(st.integers(0, len(lines[at])))
        kind = draw(st.sampled_from(("cut", "moved", "doubled", "dropped", "misspelt")))
        if kind == "cut":
            lines[at] = lines[at][:cut]
        elif kind == "moved":
            lines[at], lines[other] = lines[other], lines[at]
        elif kind == "doubled":
            lines.insert(at, lines[other])
        elif kind == "dropped":
            del lines[at : at + (1 if len(lines) > 1 else 0)]
        else:
            pieces = (",", ";", "#", ":", '"', "(", "1f", "x0", "/*", "view")
            lines[at] = lines[at][:cut] + draw(st.sampled_from(pieces)) + lines[at][cut:]
    return "\n".join(lines)


def test_what_is_garbled_is_laid_out_or_refused() -> None:
    frame = (
        "\t.cfi_startproc\n\t.loc 1 3 1 is_stmt 0\n\t.cfi_def_cfa_offset 16\n\t.cfi_offset 1, -4\n"
    )
    code = (
        frame
        + mark("a_begin")
        + LOOP_AT_END.replace("\tret\n", "")
        + mark("a_end")
        + "\tret\n\t.cfi_endproc\n"
    )
    outcomes = set()
    whole = HEAD + function(code) + function(LOOP_AT_END, "g").replace(".L", ".L9")

    @settings(max_examples=400)
    @given(garbled(whole), st.sampled_from((0, 4)))
    def look_at(text: str, rotate: int) -> None:
        try:
            once = lay_out(Assembly(text), Options(rotate=rotate))
            outcomes.add("stays" if once.kept else "laid out")
            if not once.kept:
                assert lay_out(Assembly(once.text), Options(rotate=rotate)).text == once.text
        except Fault as fault:
            assert "fault of fp_layout" not in fault.why
            outcomes.add("refused")

    look_at()
    assert outcomes == {"laid out", "stays", "refused"}


def test_what_does_another_thing_is_seen() -> None:
    def blocks(code: str) -> list[Block]:
        return body_of(statements(code.splitlines(), 1)).blocks

    code = ".L9:\n" + LOOP_AT_END.replace("\tret", "\tbne\ta0,a1,.L9\n\tret")
    right = blocks(code)
    assert do_the_same(right, blocks(code))
    for wrong in (
        code.replace("bne\ta1,a2,.L3", "beq\ta1,a2,.L3"),
        code.replace("bne\ta1,a2,.L3", "bne\ta2,a1,.L3"),
        code.replace("bne\ta0,a1,.L9", "bne\ta0,a1,.L3"),
        code.replace("\tj\t.L2\n", ""),
        code.replace("\taddi\ta1,a1,4\n", ""),
        code.replace("\tadd\ta5,a5,a4\n\taddi\ta1,a1,4\n", "\taddi\ta1,a1,4\n\tadd\ta5,a5,a4\n"),
        code.replace("\tret\n", "\tebreak\n"),
        code.replace("\tret\n", "\tnop\n\tret\n"),
    ):
        assert wrong != code and not do_the_same(right, blocks(wrong)), wrong


def test_a_branch_that_is_turned_round_does_the_same() -> None:
    one = [
        Block(branch=Branch("bne", "a0,a1,", 1), onward=2),
        *body_of(statements(["\tret"], 1)).blocks,
    ]
    two = [Block(branch=Branch("beq", "a0,a1,", 2), onward=1), one[1]]
    stop = body_of(statements(["\tmret"], 1)).blocks[0]
    assert do_the_same([*one, stop], [*two, stop])
    assert not do_the_same(
        [*one, stop], [Block(branch=Branch("beq", "a0,a1,", 1), onward=2), one[1], stop]
    )


def test_two_thousand_blocks_take_less_than_two_seconds(tmp_path: Path) -> None:
    text, count = big_function(2000, 1)
    assert count >= 2000
    (tmp_path / "x.s").write_text(HEAD + text)
    before = resource.getrusage(resource.RUSAGE_CHILDREN)
    command = [
        sys.executable,
        str(TOOLS / "fp_layout"),
        str(tmp_path / "x.s"),
        "-o",
        str(tmp_path / "y.s"),
    ]
    assert subprocess.run(command, env=os.environ, check=False).returncode == 0
    after = resource.getrusage(resource.RUSAGE_CHILDREN)
    assert after.ru_utime + after.ru_stime - before.ru_utime - before.ru_stime < 2
