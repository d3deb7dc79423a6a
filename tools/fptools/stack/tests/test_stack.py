"""How deep stacks get: no run goes deeper, the compiler's frames are the same, and what isn't known
is unknown."""
from __future__ import annotations

import json
from pathlib import Path

import pytest
from fptools.testing.common import Tool
from fptools.budget.files import Verdict
from fptools.files.elf import Program
from fptools.files.image import read_image, write_image
from fptools.files.setup import read_setup
from fptools.stack.stacks import Stack, Stacks
from fptools.code.thread import Code, ThreadCode
from fptools.testing.modelled import assembled, setup_text
from fptools.testing.stack_programs import LEVELS, Built, built

KNOWN = ("nest", "saves", "handler", "arms_again", "over", "tail", "stops", "stops_last", "untaken")
NOT_TAKEN = ("untaken",)
"""Programs whose deepest path no run takes."""

UNKNOWN_C = {
    "recursion": "recursion: even > odd > even",
    "pointer": "a call through a pointer: what it calls isn't known",
    "variable": "sp gets a value that isn't known: alloca, a variable length, or an alignment",
    "alloca": "sp isn't the same on each path to here: it grows in a loop, or by alloca",
}
UNKNOWN_ASSEMBLER = {
    "push_loop": "f (t0_push_loop.s:10): sp isn't the same on each path to here",
    "prologue_again": "main0 (t0_prologue_again.s:4): sp isn't the same on each path to here",
    "leaking_tail": "g+0xc (t0_leaking_tail.s:13): sp isn't as it was at the call",
    "falls_through": "g+0x8 (t0_falls_through.s:10): sp isn't as it was at the call",
    "returns_elsewhere": "f+0x8 (t0_returns_elsewhere.s:10): it isn't certain that this goes back",
    "lost_s0": "main0+0xc (t0_lost_s0.s:7): sp gets a value that isn't known",
    "overwrites": "main0+0xc (t0_overwrites.s:7): sp gets a value that isn't known",
    "below_sp": "f+0xc (t0_below_sp.s:10): it isn't certain that this goes back to the call",
    "changes_s0": "it sets mtvec to an address that isn't known",
    "skips_any": "a moment may expire at any word, and a trap handler skips the word",
    "resumes": "the trap handler handler goes on in code that may trap, and keeps its stack",
    "two_stacks": "main0 (t0_two_stacks.s:4): sp isn't the same on each path to here",
    "asks_in_handler": "handler+0x8 (t0_asks_in_handler.s:12): a trap in the trap handler handler",
    "returns_from_trap": "a trap handler returns by `ret`: x1 is that of the code that trapped",
    "large_frame": "f+0x8 (t0_large_frame.s:8): sp is above where it was at the call",
    "skips_two": "a trap handler comes back to an address that isn't known",
    "walks": "0x30 next (t0_walks.s:8): it stores by a pointer from 0x20000700, where no data of",
    "indexes": "it stores by a pointer from 0x20000700, where no data of the executable are",
    "table": "f+0x10 (t0_table.s:16): it stores by a pointer from 0x20000740, where no data of",
    "passes": "it stores by a pointer from 0x20000700, where no data of the executable are",
    "unlinked": "main0 (t0_unlinked.s:4): a call by x5: -mno-save-restore calls by x1 only",
}
HOLDS_ASSEMBLER = {
    "low_store": "100 of 2,048 bytes: main0 (100)",
    "skips": "64 of 2,048 bytes: loop (16) > f (32) > trap: handler (16)",
    "restarts": "16 of 2,048 bytes: loop (16)",
    "walks_data": "32 of 1,792 bytes: main0 (32)",
    "safe_loop": "144 of 2,048 bytes: main0 (16) > trap: handler (64) > trap: handler (64)",
}
COMPILED = [
    *((name, "gcc", level, False) for name in KNOWN for level in LEVELS),
    *(
        (name, "gcc", level, True)
        for name in ("handler", "tail")
        for level in ("-O1", "-O2", "-Os")
    ),
    *((name, "clang", level, False) for name in KNOWN for level in LEVELS),
]
"""Programs with a compiler, a level, and whether fp_layout orders their blocks."""


def agrees(made: Built, stack: Stack, lowest: int, is_equal: bool) -> None:
    """A depth is that of a run, or above where a run doesn't take the path; frames are those of the
    compiler."""
    assert stack.bytes is not None and lowest <= stack.bytes
    assert not is_equal or lowest == stack.bytes, stack.text
    assert sum(frame.bytes for frame in stack.frames) == stack.bytes
    for frame in stack.frames:
        usage = made.usage.get(frame.name, made.usage.get(frame.name.rpartition(".")[0]))
        assert usage in (None, frame.bytes), f"{frame.name}: {usage} bytes by -fstack-usage"


@pytest.mark.parametrize(("name", "compiler", "level", "laid"), COMPILED)
def test_no_run_goes_deeper(
    flexpret: str, tmp_path: Path, name: str, compiler: str, level: str, laid: bool
) -> None:
    made = built(flexpret, tmp_path, name, level, compiler, laid)
    stack = made.stack()
    assert stack.verdict is (Verdict.OVER if name == "over" else Verdict.HOLDS)
    agrees(made, stack, made.lowest(flexpret), name not in NOT_TAKEN)


@pytest.mark.parametrize("name", UNKNOWN_C)
@pytest.mark.parametrize(("compiler", "level"), [("gcc", "-O0"), ("gcc", "-Os"), ("clang", "-O2")])
def test_what_is_unknown_in_c(
    flexpret: str, tmp_path: Path, name: str, compiler: str, level: str
) -> None:
    stack = built(flexpret, tmp_path, name, level, compiler).stack()
    assert (stack.verdict, stack.bytes) == (Verdict.UNKNOWN, None)
    assert UNKNOWN_C[name] in stack.text and f"(t0_{name}.c:" in stack.text


@pytest.mark.parametrize("name", UNKNOWN_ASSEMBLER)
def test_what_is_unknown_in_assembler(flexpret: str, tmp_path: Path, name: str) -> None:
    stack = built(flexpret, tmp_path, name, "").stack()
    assert stack.verdict is Verdict.UNKNOWN and UNKNOWN_ASSEMBLER[name] in stack.text


@pytest.mark.parametrize("name", HOLDS_ASSEMBLER)
def test_what_holds_in_assembler(flexpret: str, tmp_path: Path, name: str) -> None:
    made = built(flexpret, tmp_path, name, "")
    stack = made.stack()
    assert (stack.verdict, stack.text) == (Verdict.HOLDS, HOLDS_ASSEMBLER[name])
    assert made.lowest(flexpret) <= (stack.bytes or 0)


def test_data_at_a_fixed_address(flexpret: str, tmp_path: Path) -> None:
    stack = built(flexpret, tmp_path, "own_data", "").stack()
    text = "32 of 12 bytes: main0 (32); below is what 0x24 main0+0x8 (t0_own_data.s:5) uses"
    assert (stack.verdict, stack.text) == (Verdict.OVER, text)


def budget(asking: Tool, made: Built, *words: str) -> tuple[int, str, str]:
    """The status of fp_budget for the step of over.c, its first line, and its standard error."""
    asked = (
        "--setup",
        made.setup,
        "--thread",
        "0",
        "--from-label",
        "step_begin",
        "--to-label",
        "step_end",
    )
    ran = asking("fp_budget", made.elf, *asked, *words)
    return ran.returncode, ran.stdout.splitlines()[0], ran.stderr


def test_a_stack_that_does_not_fit_makes_a_budget_unknown(
    asking: Tool, flexpret: str, tmp_path: Path
) -> None:
    made = built(flexpret, tmp_path, "over", "-O2", laid=True)
    why = "the stack may not fit: 896 of 844 bytes: main0 (16) > large (880); below is .bss0"
    for words in ((), ("--assume", "stack fits")):
        status, line, told = budget(asking, made, *words)
        assert (status, line.startswith(f"UNKNOWN  T0 step_begin to step_end: {why}: ")) == (
            2,
            True,
        )
        assert "assume" not in line and told == ""


def test_a_stack_that_does_not_fit_makes_a_period_unknown(
    asking: Tool, flexpret: str, tmp_path: Path
) -> None:
    made = built(flexpret, tmp_path, "over_waits", "-O2", laid=True)
    period = ("--setup", made.setup, "--thread", "0", "--period", "--ns", "100000")
    for words in ((), ("--assume", "stack fits")):
        ran = asking("fp_budget", made.elf, *period, *words)
        assert (ran.returncode, ran.stdout.count("\n")) == (2, 1), ran
        assert ran.stdout.startswith("UNKNOWN  T0 period of main0 (t0_over_waits.c:")
        assert ": the stack may not fit: 912 of 844 bytes: " in ran.stdout
    ran = asking("fp_budget", made.elf, "--setup", made.setup, "--all", "--assume", "stack fits")
    assert ran.returncode == 2 and "\nOVER     T0 stack: 912 of 844 bytes" in ran.stdout


def test_a_return_that_is_lost_before_the_loop_makes_a_period_unknown(
    asking: Tool, flexpret: str, tmp_path: Path
) -> None:
    """A period begins behind code whose returns go back: else the thread may be in another loop."""
    made = built(flexpret, tmp_path, "lost_before", "")
    asked = ("--setup", made.setup, "--thread", "0", "--period", "--ns", "2000")
    ran = asking("fp_budget", made.elf, *asked)
    assert ran.returncode == 2 and ran.stdout.startswith("UNKNOWN  T0 period of main0 ("), ran
    assert ": whether the stack fits is unknown: " in ran.stdout
    ran = asking("fp_budget", made.elf, *asked, "--assume", "stack fits")
    assert ran.returncode == 0 and "assumes stack fits" in ran.stderr


def test_a_stack_in_the_region_of_another_thread(flexpret: str, tmp_path: Path) -> None:
    made = built(flexpret, tmp_path, "nest", "-O2")
    made.setup.write_text(made.setup.read_text().replace('d_regions = ["T0"', 'd_regions = ["T1"'))
    stack = made.stack()
    text = (
        "144 of 0 bytes: main0 (16) > outer (16) > middle (64) > inner (48); below is 0x20000800: "
    )
    assert (stack.verdict, stack.text) == (
        Verdict.OVER,
        text + "each store traps, the region is T1's",
    )
    made.setup.write_text(
        made.setup.read_text().replace('d_regions = ["T1"', 'd_regions = ["shared"')
    )
    stack = made.stack()
    assert stack.verdict is Verdict.UNKNOWN
    assert "in a shared region: other threads may store there" in stack.text


def test_the_stack_of_a_shipped_example(asking: Tool) -> None:
    words = ("fp_stack", "examples/c/pid.elf", "--setup", "examples/c/pid.toml")
    ran = asking(*words, "--thread", "0")
    line = "holds    T0 stack: 32 of 2,000 bytes: main0 (16) > trap: on_trap (16)\n"
    note = "fp_stack: T0: assumes that no trap comes while a trap handler runs\n"
    assert (ran.returncode, ran.stdout, ran.stderr) == (0, line, note)
    stacks = json.loads(asking(*words, "--json").stdout)["stacks"]
    assert [it["thread"] for it in stacks] == list(range(8))
    assert (stacks[0]["left"], stacks[1]["text"]) == (1968, "no stack: sp is never lowered")


def test_bad_input(asking: Tool, tmp_path: Path) -> None:
    setup = ("--setup", "examples/c/pid.toml")
    for words, why in (
        (("examples/c/pid.elf", "--setup", tmp_path / "no.toml"), "no.toml"),
        ((tmp_path / "no.elf", *setup), "no.elf"),
        (
            ("tools/fptools/testing/calls.elf", *setup),
            "the image isn't made of tools/fptools/testing/calls.elf",
        ),
        (
            ("examples/c/pid.elf", "--setup", "examples/sum.toml", "--thread", "5"),
            "no [[thread]] table of thread 5",
        ),
    ):
        ran = asking("fp_stack", *words)
        assert (ran.returncode, ran.stdout) == (2, "")
        assert why in ran.stderr and ran.stderr.count("\n") == 1


def stack_of(folder: Path, source: str) -> Stack:
    """The stack of thread 0 for a source of the assembler, which has no executable."""
    setup, image = folder / "own.toml", folder / "own.fpx"
    image.write_bytes(assembled(source).written())
    setup.write_text(setup_text(str(image)))
    return Stacks(read_setup(setup), read_image(image), Program(None)).all()[0]


STOPS = "handler: addi sp, sp, -16\nsw ra, 0(sp)\nstays: j stays\n"
SETS_MTVEC = "li x5, 0x100\ncsrw mtvec, x5\n"


def test_a_moment_that_may_expire_before_sp_is_set(tmp_path: Path) -> None:
    source = f"{SETS_MTVEC}{{}}li sp, 0x20000800\n{{}}done: j done\n.org 0x100\n{STOPS}"
    stack = stack_of(tmp_path, source.format("ee x0, x0\n", ""))
    assert "a moment may expire before sp is set to a number" in stack.text
    stack = stack_of(tmp_path, source.format("", "ee x0, x0\n"))
    assert (stack.verdict, stack.bytes) == (Verdict.HOLDS, 32)


def test_sp_as_another_register(tmp_path: Path) -> None:
    """In assembler x2 may be the port's address, or a counter; as an address of data it is a stack."""
    loop = "loop: addi x2, x2, -1\nbnez x2, loop\ndone: j done\n"
    assert stack_of(tmp_path, f"lui x2, 0x40000\n{loop}").verdict is Verdict.HOLDS
    assert stack_of(tmp_path, f"lui x2, 0x20000\n{loop}").verdict is Verdict.UNKNOWN
    assert stack_of(tmp_path, f"lw x2, 0(x0)\nsw x5, 0(x2)\n{loop}").verdict is Verdict.UNKNOWN
    assert (
        stack_of(tmp_path, f"lui x8, 0x20001\nmv x2, x8\nmv x9, x2\n{loop}").verdict
        is Verdict.UNKNOWN
    )


def test_regions_that_a_thread_writes(flexpret: str, tmp_path: Path) -> None:
    made = built(flexpret, tmp_path, "nest", "-O2")
    image = made.setup.with_suffix(".fpx")
    words = read_image(image) | {0x1000: 0x7C229073, 0x1004: 0x0000006F}  # csrw dregions, t0; j .
    image.write_bytes(write_image(words))
    soft = '[[thread]]\nid = 5\nmode = "soft"\nentry = 0x1000\npermit = true\n'
    made.setup.write_text(made.setup.read_text() + soft)
    found = Stacks(read_setup(made.setup), words, Program(None)).all()
    note = "assumes that regions stay as the setup has them: T5 writes slots, modes or regions"
    assert found[0].notes == (note,)


def test_an_entry_is_no_word_behind_another(tmp_path: Path) -> None:
    """Thread 1 begins behind the word that gives x5 a number, which its jump goes by."""
    source = (
        "addi x5, x0, 0x40\njalr x0, 0x100(x5)\n.org 0x100\nhere: csrrw x0, slots, x5\nj here\n"
        ".org 0x140\nstays: j stays\n"
    )
    (tmp_path / "own.fpx").write_bytes(assembled(source).written())
    words, second = read_image(tmp_path / "own.fpx"), 4
    code = Code(words, [0, second])
    assert code.jump_target(code.word(4)) is None and Code(words).jump_target(code.word(4)) == 0x140
    assert ThreadCode(code, second).configuration_write is not None
    assert ThreadCode(Code(words), second).configuration_write is None
