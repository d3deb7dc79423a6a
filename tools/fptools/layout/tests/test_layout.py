"""The order of blocks that fp_layout makes, and what it leaves as it is."""
from __future__ import annotations

from pathlib import Path

import pytest
from fptools.testing.common import Tool
from fptools.layout.layout import Options
from fptools.layout.tests.codes import HEAD, LOOP_AT_END, big_function, body, function, laid, mark


def test_a_loop_that_is_entered_at_its_test_begins_with_it() -> None:
    assert body(LOOP_AT_END) == [
        ".L2:", "beq a1,a2,.Lfp1", ".L3:", "lw a4,0(a1)", "add a5,a5,a4", "addi a1,a1,4", "j .L2",
        ".Lfp1:", "mv a0,a5", "ret",
    ]  # fmt: skip


def test_rotate_copies_the_test_to_the_end() -> None:
    assert body(LOOP_AT_END, Options(rotate=4)) == [
        ".L2:", "beq a1,a2,.Lfp1", ".L3:", "lw a4,0(a1)", "add a5,a5,a4", "addi a1,a1,4", "bne a1,a2,.L3",
        ".Lfp1:", "mv a0,a5", "ret",
    ]  # fmt: skip


def test_rotate_leaves_a_longer_test() -> None:
    code = LOOP_AT_END.replace(".L2:\n", ".L2:\n\taddi\ta3,a3,1\n\taddi\ta3,a3,1\n")
    assert body(code, Options(rotate=1)) == body(code)
    assert body(code, Options(rotate=2)) != body(code)


def test_an_order_that_is_right_stays_as_it_is() -> None:
    code = "\tli\ta5,0\n.L2:\n\taddi\ta5,a5,1  # a note\n\tbne\ta5,a0,.L2\n\tret\n"
    assert laid(code).text == HEAD + function(code)


def test_a_part_of_a_loop_that_is_behind_the_return_comes_into_it() -> None:
    code = ".L2:\n\taddi\ta0,a0,-1\n\tbeq\ta0,a3,.L5\n.L3:\n\tbne\ta0,zero,.L2\n\tret\n.L5:\n\tsw\ta0,0(a1)\n\tj\t.L3\n"
    assert body(code) == [
        ".L2:", "addi a0,a0,-1", "bne a0,a3,.L3", ".L5:", "sw a0,0(a1)", ".L3:", "bne a0,zero,.L2", "ret",
    ]  # fmt: skip


def test_a_loop_with_two_entries_gets_copies() -> None:
    code = "\tbne\ta0,zero,.L3\n.L2:\n\taddi\ta1,a1,1\n.L3:\n\taddi\ta2,a2,1\n\tbne\ta2,a1,.L2\n\tret\n"
    assert body(code).count("addi a2,a2,1") + body(code).count("addi a1,a1,1") == 3


def test_copies_have_a_limit() -> None:
    code = "\tbne\ta0,zero,.L3\n.L2:\n\taddi\ta1,a1,1\n.L3:\n\taddi\ta2,a2,1\n\tbne\ta2,a1,.L2\n\tret\n"
    made = laid(code, Options(most_copies=1))
    assert [it.text for it in made.kept] == [
        "f stays as it is: a loop is entered at two places, and copies of 1 instructions don't end that"
    ]
    assert made.text == HEAD + function(code)


def test_a_mark_is_never_copied() -> None:
    code = (
        "\tbne\ta0,zero,.L3\n.L2:\n\taddi\ta1,a1,1\n"
        + mark("a")
        + "\tadd\ta1,a1,a2\n.L3:\n\taddi\ta2,a2,1\n"
    )
    code += mark("b") + "\tbne\ta2,a1,.L2\n\tret\n"
    assert [it.text for it in laid(code).kept] == [
        "f stays as it is: a loop is entered at two places, and a mark is behind one of them"
    ]


def test_control_that_would_run_out_of_the_function_traps() -> None:
    assert body("\tbne\ta0,zero,.L2\n\tret\n.L2:\n\tcall\tabort\n")[-2:] == ["jal abort", "ebreak"]


def test_a_loop_that_begins_with_the_function() -> None:
    assert body(".L1:\n\taddi\ta0,a0,-1\n\tbne\ta0,zero,.L1\n\tret\n")[0] == ".L1:"
    code = ".L1:\n\tbeq\ta0,zero,.L2\n\tbeq\ta0,a1,.L3\n.L4:\n\taddi\ta0,a0,-1\n\tj\t.L1\n.L2:\n\tret\n.L3:\n\tnop\n\tj\t.L4\n"
    assert body(code)[-1] == "ret"


def test_unreached_code_and_its_labels_stay() -> None:
    assert body(LOOP_AT_END + ".L9:\n\taddi\ta0,a0,9\n\tj\t.L3\n")[-2:] == ["addi a0,a0,9", "j .L3"]


def test_what_is_made_hangs_on_the_assembly_alone(tool: Tool, tmp_path: Path) -> None:
    (tmp_path / "x.s").write_text(HEAD + big_function(120, 5)[0])
    seen = set()
    for seed in ("1", "2", "3"):
        tool.environment["PYTHONHASHSEED"] = seed
        seen.add(tool("fp_layout", tmp_path / "x.s", "--rotate").stdout)
    assert len(seen) == 1 and seen != {""}


def test_a_jump_to_itself_and_an_empty_function_stay() -> None:
    for code in (".L2:\n\tj\t.L2\n", ""):
        assert laid(code).text == HEAD + function(code)


def test_a_file_of_the_line_table_comes_before_each_line_of_it() -> None:
    """clang writes it before the first use, and the block with that use may be moved back."""
    files = (
        '\t.file\t1 "code.c"\n',
        '\t.file\t2 "." "other.h" md5 0x0123456789abcdef0123456789abcdef\n',
    )
    code = LOOP_AT_END.replace(".L3:\n", f".L3:\n{files[1]}\t.loc 2 5 3\n")
    code = code.replace(".L2:\n", ".L2:\n\t.loc 2 6 3\n").replace(
        "\tj\t.L2\n", "\t.loc 1 4 2\n\tj\t.L2\n"
    )
    lines = laid(files[0] + code).text.splitlines(True)
    first = next(k for k, line in enumerate(lines) if ".loc 2 " in line)
    assert lines.count(files[1]) == 1 and lines.index(files[1]) < first


def far_loop(words: int) -> str:
    """A loop whose end is so many words behind its head, and which is left at the head."""
    return (
        ".L2:\n\tbeq\ta0,zero,.L4\n"
        + "\tadd\ta1,a1,a0\n" * words
        + "\taddi\ta0,a0,-1\n\tj\t.L2\n.L4:\n\tret\n"
    )


def test_a_branch_reaches_as_far_as_it_can() -> None:
    assert laid(far_loop(1000)).text == HEAD + function(far_loop(1000))


def test_a_branch_that_is_too_far_leads_over_a_jump() -> None:
    made = body(far_loop(1100))
    assert made[:4] == [".L2:", "bne a0,zero,.Lfp1", "j .L4", ".Lfp1:"]


def test_a_branch_back_that_is_too_far() -> None:
    made = body(
        ".L2:\n" + "\tadd\ta1,a1,a0\n" * 1100 + "\taddi\ta0,a0,-1\n\tbne\ta0,zero,.L2\n\tret\n"
    )
    assert made[-5:] == ["addi a0,a0,-1", "beq a0,zero,.Lfp1", "j .L2", ".Lfp1:", "ret"]


def test_labels_that_are_numbers() -> None:
    code = "\tj\t.L2\n.L3:\n\tbeq\ta0,a1,1f; mv\ta2,a3; 1: # movcc\n\tnop\n.L2:\n\tbne\ta2,a1,.L3\n\tret\n"
    assert body(code) == [
        ".L2:", "beq a2,a1,.Lfp1", ".L3:", "beq a0,a1,.L1of11", "mv a2,a3", ".L1of11:", "nop", "j .L2", ".Lfp1:", "ret",
    ]  # fmt: skip


def test_a_block_that_only_jumps_is_passed() -> None:
    code = "\tj\t.L2\n.L3:\n\tbeq\ta0,a1,.L4\n\taddi\ta2,a2,1\n.L2:\n\tbne\ta2,a1,.L3\n\tret\n.L4:\n.LVL3:\n\tj\t.L2\n"
    made = body(code)
    assert "beq a0,a1,.L2" in made and {".L4:", ".LVL3:"} <= set(made) and made.count("j .L2") == 1


def test_branches_to_distant_labels_as_gcc_13_writes_them() -> None:
    code = "\tj\t.L2\n.L3:\n\taddi\ta0,a0,-1\n.L2:\n\tbne\ta0,zero,1f; jump\t.L4,ra; 1:\n\tj\t.L3\n.L4:\n\tret\n"
    made = [it for it in body(code) if not it.startswith(".L")]
    assert made == ["beq a0,zero,.L4", "addi a0,a0,-1", "j .L2", "ret"]


@pytest.mark.parametrize(
    ("code", "line", "why"),
    [
        ("\tfrobnicate\ta0\n\tret\n", 9, "`frobnicate` is no instruction that fp_layout knows"),
        ("\tsh1add\ta0,a1,a2\n\tret\n", 9, "`sh1add` is no instruction that fp_layout knows"),
        (
            "\tnop\n\tjr\ta5\n\t.section\t.rodata\n.L4:\n\t.word\t.L8\n\t.text\n.L8:\n\tret\n",
            10,
            "`jr a5` jumps to an address in a register: -fno-jump-tables avoids it for a switch; a computed goto has no",
        ),
        (
            "\tjalr\tx0, 0(a5)\n",
            9,
            "`jalr x0, 0(a5)` jumps to an address in a register: -fno-jump-tables",
        ),
        (
            "\ttail\tg\n",
            9,
            "`tail g`: another function returns for it: -fno-optimize-sibling-calls",
        ),
        (
            "\tbne\ta0,a1,g\n\tret\n",
            9,
            "a jump to `g`, which isn't in it: another function returns for it",
        ),
        ("\tj\t.L77\n", 9, "a jump to `.L77`, which isn't in it"),
        (
            "\tcall\tt0,__riscv_save_0\n\tret\n",
            9,
            "`call t0, __riscv_save_0` is a call whose return address isn't in ra; -mno",
        ),
        (
            "\tbeq\ta0,zero,.L3\n\tret\n\t.section\t.text.unlikely\n\t.type\tf.cold, @function\nf.cold:\n.L3:\n\tcall\tg\n\t.text\n",
            11,
            "`.section .text.unlikely` is among its code: -fno-reorder-blocks-and-partition keeps it in one section",
        ),
        ("\tnop\n\t.word\t0x13\n\tret\n", 10, "`.word 0x13` is among its code"),
        (
            "\t.insn r 0x2b, 0, 0, a0, x0, x0\n\tret\n",
            9,
            "`.insn` is no instruction that fp_layout knows",
        ),
        ("#APP\n\tj\t.L2\n#NO_APP\n.L2:\n\tret\n", 10, "an asm has a jump: `j .L2`"),
        (
            "#APP\n1:\n\tbnez a0, 1b\n#NO_APP\n\tret\n",
            10,
            "an asm has the label `1`, to which it may jump",
        ),
        ("#APP\n\tmret\n#NO_APP\n", 10, "an asm has a jump: `mret`"),
        ("#APP\n\tnop; wfi\n#NO_APP\n\tret\n", 10, "`wfi` is no instruction that fp_layout knows"),
        ("#APP\n\t.word 0x73\n#NO_APP\n\tret\n", 10, "an asm has `.word 0x73`"),
        ("#APP\n\tla a0, .L3\n#NO_APP\n.L3:\n\tret\n", 10, "an asm has a jump: `la a0, .L3`"),
    ],
)
def test_a_function_that_stays_and_why(
    tool: Tool, tmp_path: Path, code: str, line: int, why: str
) -> None:
    text = HEAD + function(code) + function(LOOP_AT_END, "g")
    (tmp_path / "x.s").write_text(text)
    ran = tool("fp_layout", tmp_path / "x.s", "-o", tmp_path / "y.s")
    first, *more = ran.stderr.splitlines()
    assert (
        first.startswith(f"fp_layout: {tmp_path}/x.s:{line}: ")
        and f"f stays as it is: {why}" in first
    )
    assert not more and ran.returncode == 1
    written = (tmp_path / "y.s").read_text()
    assert function(code) in written and "beq\ta1,a2,.Lfp1" in written


def test_instructions_of_the_source_that_go_straight_on() -> None:
    code = '#APP\n# 3 "code.c" 1\n\t.insn r 0x0b, 0, 0, a4, x0, x0\n\t.insn r 0x0b, 1, 0, a5, x0, x0\n# 0 "" 2\n'
    code += '# 4 "code.c" 1\n\t/* a; b */ fence\n# 0 "" 2\n# 5 "code.c" 1\n\tcsrr a3, mcause # why; not\n# 0 "" 2\n#NO_APP\n'
    made = body(code + LOOP_AT_END.replace("a5", "a3"))
    assert made[:3] == ["/* a; b */ fence", "csrr a3, mcause # why; not", ".L2:"]


def test_a_call_is_a_single_word_and_jumps_of_other_kinds_are_known() -> None:
    code = "\tcall\tg\n\tjalr\ta5\n\tjal\tra,h\n\tcall\tk@plt\n\tjr\tra\n"
    assert body(code) == ["jal g", "jalr a5", "jal ra,h", "jal k", "jr ra"]
