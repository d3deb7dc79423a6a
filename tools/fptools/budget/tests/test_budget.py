"""What fp_budget says of budgets: what can't be known never holds."""
from __future__ import annotations

import subprocess
import sys
from pathlib import Path
from xml.etree import ElementTree

import pytest
from fptools.testing.common import TOP, Tool
from fptools.budget.judge import HELP, Budget, Judge, Verdict
from fptools.files.elf import Function, Program
from fptools.files.image import read_image
from fptools.program.calls import Flexpret
from fptools.files.setup import read_setup

PID = ("examples/c/pid.toml", "--elf", "examples/c/pid.elf")
COMES_BACK = "0x50 on_trap+0x34: MRET goes on where a trap was; 0xc0 step_begin+0xc: an EE"
NO_LINES = (
    "assumes moved work: nothing tells whether work was moved out of the section: "
    "the code has no line tables: compile with -g"
)
STEP_NOTE = (
    f"fp_budget: T0 step: assumes no traps: it is of executions without a trap ({COMES_BACK})"
)
PLAIN_STEP = 'name = "step"\nthread = 0\nfrom = "step_begin"\nto = "step_end"\n'
STEP = f'{PLAIN_STEP}assume = ["no traps", "moved work"]\n'
CALLS = "calls = true goes through functions that are called by x1"
ELSEWHERE = "lay the code out by fp_layout, or name the address in `exits` if it may end there"


def judged(
    asking: Tool, folder: Path, words: tuple[str, ...], *tables: str
) -> tuple[int, list[str]]:
    """The status and the lines for budgets of these tables, without those that the script warns by."""
    budgets = folder / "budgets.toml"
    budgets.write_text("".join(f"[[budget]]\n{table}\n" for table in tables))
    ran = asking("fp_budget", words[0], budgets, *words[1:])
    lines = (ran.stdout + ran.stderr).splitlines()
    return ran.returncode, [it for it in lines if not it.startswith("flexpret: warning: ")]


def section(start: str, end: str, more: str = "cycles = 1000") -> str:
    return f'name = "it"\nthread = 0\nfrom = {start}\nto = {end}\n{more}\n'


def test_a_budget_that_holds_and_one_that_is_over(asking: Tool, tmp_path: Path) -> None:
    assert judged(asking, tmp_path, PID, f"{STEP}cycles = 352") == (
        0,
        ["holds    T0 step: 352 of 352 cycles (3520 ns)", STEP_NOTE],
    )
    assert judged(asking, tmp_path, PID, f"{STEP}cycles = 351") == (
        1,
        ["OVER     T0 step: 352 of 351 cycles (3520 ns)", STEP_NOTE],
    )
    assert judged(asking, tmp_path, PID, f"{STEP}ns = 3529")[0] == 0
    assert judged(asking, tmp_path, PID, f"{STEP}ns = 3519")[0] == 1


@pytest.mark.parametrize(
    ("setup", "start", "end", "why"),
    [
        (
            "stack",
            "0x10",
            "0x14",
            f"0x10 to 0x100: a call leaves the section: a bound ends here; {CALLS}",
        ),
        (
            "nest",
            "0x10",
            "0x18",
            f"0x14 to 0xc: leaves for another address: a bound ends here; {ELSEWHERE}",
        ),
        (
            "nest",
            "0x24",
            "0x30",
            f"status 6: refused bound 4 UnboundedBackEdge 00000024: {HELP['UnboundedBackEdge']}",
        ),
        ("nest", "0x40", "0x50", "0x40: no code is here: a bound ends here; is the address right?"),
        ("traps", "0x14", "0x18", "0x14: traps: a bound ends here"),
        (
            "traps",
            "0x1c",
            "0x20",
            "0x1c: no code is here: a bound ends here; is the address right?",
        ),
        (
            "traps",
            "0x100",
            "0x130",
            f"status 6: refused bound 2 IndirectJump 00000124: {HELP['IndirectJump']}",
        ),
        (
            "drive",
            "0x10",
            "0x38",
            f"status 6: refused bound 3 TimedWait 00000034: {HELP['TimedWait']}",
        ),
        ("drive", "0x40", "0x20", "status 3: refused section 3 Order"),
    ],
)
def test_what_is_unknown(
    asking: Tool, tmp_path: Path, setup: str, start: str, end: str, why: str
) -> None:
    status, lines = judged(asking, tmp_path, (f"examples/{setup}.toml",), section(start, end))
    assert (status, lines) == (2, [f"UNKNOWN  T0 it: {why}"])


def test_a_bound_of_0_is_unknown(asking: Tool, tmp_path: Path) -> None:
    program = tmp_path / "zero"
    program.write_text("#!/bin/sh\necho bound 0\n")
    program.chmod(0o755)
    words = ("examples/nest.toml", "--flexpret", str(program))
    table = section("0x8", "0x20", 'cycles = 1000\nassume = ["loop tables"]')
    status, lines = judged(asking, tmp_path, words, table)
    assert (status, lines) == (2, ["UNKNOWN  T0 it: a bound of 0: nothing of the section issues"])


def test_a_jump_elsewhere_is_unknown_unless_it_is_meant(asking: Tool, tmp_path: Path) -> None:
    words = ("examples/traps.toml",)
    way = f"0x10c to 0x124: leaves for another address: a bound ends here; {ELSEWHERE}"
    assert judged(asking, tmp_path, words, section("0x108", "0x110")) == (
        2,
        [f"UNKNOWN  T0 it: {way}"],
    )
    meant = "cycles = 1000\nexits = [0x124]"
    assert judged(asking, tmp_path, words, section("0x108", "0x110", meant))[0] == 0


def setup_text(image: Path) -> str:
    """A setup in which T0 has all turns and begins at address 0."""
    regions = ["readonly"] * 8
    return (
        f"period = 10\nimage = {str(image)!r}\nslots = {['T0'] + ['D'] * 7}\n"
        f"i_regions = {regions}\nd_regions = {regions}\n[[thread]]\nid = 0\nmode = 'hard'\nentry = 0\n"
    )


@pytest.fixture
def calling(flexpret: str, tmp_path: Path) -> tuple[str, ...]:
    """The words for a setup of calls.elf, in which T0 has all turns."""
    elf = TOP / "tools/fptools/testing/calls.elf"
    image, setup = tmp_path / "calls.fpx", tmp_path / "calls.toml"
    image.write_bytes(
        subprocess.run([flexpret, "elf", elf], capture_output=True, check=True).stdout
    )
    setup.write_text(setup_text(image))
    return str(setup), "--elf", str(elf)


def test_calls_of_functions(asking: Tool, tmp_path: Path, calling: tuple[str, ...]) -> None:
    table = section('"start"', '"back"')
    assert judged(asking, tmp_path, calling, table) == (
        2, [f"UNKNOWN  T0 it: 0x0 start to 0xc outer: a call leaves the section: a bound ends here; {CALLS}"],
    )  # fmt: skip
    # Three cycles for each call and return, one for each of three other words. Nothing tells that it isn't of C.
    status, lines = judged(asking, tmp_path, calling, f"{table}calls = true\n")
    assert (status, "nothing tells whether work was moved" in lines[0]) == (2, True)
    assumed = f'{table}calls = true\nassume = ["moved work"]\n'
    assert judged(asking, tmp_path, calling, assumed) == (
        0,
        ["holds    T0 it: 15 of 1000 cycles (150 ns)", f"fp_budget: T0 it: {NO_LINES}"],
    )


def test_a_called_function_that_traps(
    asking: Tool, tmp_path: Path, calling: tuple[str, ...]
) -> None:
    table = section('"back"', '"again"', "cycles = 1000\ncalls = true")
    assert judged(asking, tmp_path, calling, table) == (
        2,
        ["UNKNOWN  T0 it: 0x24 broken: traps: a bound ends here"],
    )


def setup_of(folder: Path, words: list[int], loops: str = "") -> Path:
    """A setup over these words from address 0 on."""
    code = b"".join(it.to_bytes(4, "little") for it in words)
    image, setup = folder / "own.fpx", folder / "own.toml"
    image.write_bytes(
        b"FPX1" + b"".join(it.to_bytes(4, "little") for it in (1, 0, len(code))) + code
    )
    setup.write_text(setup_text(image) + loops)
    return setup


NOP, RETURN, HERE, CALL_FOUR_ON, CALL_BY_T0 = 0x13, 0x8067, 0x6F, 0x010000EF, 0x010002EF


def of_functions(
    flexpret: str, folder: Path, words: list[int], loops: str = ""
) -> tuple[Verdict, str]:
    """What is said of the section of the first three words, where a function stands from the sixth on."""
    setup = read_setup(setup_of(folder, words, loops))
    image = read_image(setup.image)
    program = Program()
    program.functions = [Function(0x14, 4 * len(words), "called")]
    judge = Judge(Flexpret(flexpret), setup, image, program)
    result = judge.judge(Budget("it", 0, 0, 0xC, 1000, calls=True))
    return result.verdict, result.text


def test_a_call_by_another_register_than_x1_leaves_a_section(flexpret: str, tmp_path: Path) -> None:
    words = [NOP, CALL_FOUR_ON, NOP, HERE, HERE, NOP, RETURN]
    assert of_functions(flexpret, tmp_path, words) == (Verdict.HOLDS, "9 of 1000 cycles (90 ns)")
    words[1] = CALL_BY_T0
    text = f"0x4 to 0x14: a call leaves the section: a bound ends here; {CALLS}"
    assert of_functions(flexpret, tmp_path, words) == (Verdict.UNKNOWN, text)


def test_a_called_function_whose_endless_loop_has_a_table(flexpret: str, tmp_path: Path) -> None:
    words = [NOP, CALL_FOUR_ON, NOP, HERE, HERE, NOP, HERE]
    loops = "[[loop]]\nhead = 0x18\nlast = 0x18\nbound = 3\n"
    text = "0x14: a function that is called never returns"
    assert of_functions(flexpret, tmp_path, words, loops) == (Verdict.UNKNOWN, text)


def test_a_section_whose_endless_loop_has_a_table(asking: Tool, tmp_path: Path) -> None:
    loops = "[[loop]]\nhead = 0x4\nlast = 0x4\nbound = 3\n"
    setup = setup_of(tmp_path, [NOP, HERE, NOP], loops)
    status, lines = judged(asking, tmp_path, (str(setup),), section("0", "8"))
    assert (status, lines) == (2, ["UNKNOWN  T0 it: no path leads to the section's end"])


EXPIRE, DISARM = 0x0062_C00B, 0x500B


def test_an_expiry_that_may_end_a_visit_is_told(asking: Tool, tmp_path: Path) -> None:
    setup = setup_of(tmp_path, [NOP, EXPIRE, NOP, DISARM, NOP])
    status, lines = judged(asking, tmp_path, (str(setup),), section("0", "16"))
    assert (status, lines) == (
        0,
        [
            "holds    T0 it: 8 of 1000 cycles (80 ns)",
            "fp_budget: T0 it: 0x4: an EE; the bound ends where its moment expires",
        ],
    )
    assert lines[1:] == judged(asking, tmp_path, (str(setup),), section("8", "16"))[1][1:]


def test_an_expiry_of_a_called_function_is_told(flexpret: str, tmp_path: Path) -> None:
    setup = read_setup(setup_of(tmp_path, [NOP, CALL_FOUR_ON, NOP, HERE, HERE, EXPIRE, RETURN]))
    program = Program()
    program.functions = [Function(0x14, 0x1C, "called")]
    judge = Judge(Flexpret(flexpret), setup, read_image(setup.image), program)
    note = "0x14: an EE; the bound ends where its moment expires"
    assert judge.judge(Budget("it", 0, 0, 0xC, 1000, calls=True)).note == note
    assert judge.judge(Budget("it", 0, 0, 0x4, 1000, calls=True)).note == note


def test_a_called_function_that_never_returns(asking: Tool, tmp_path: Path) -> None:
    table = section('"start0"', '"stopped0"', "cycles = 1000\ncalls = true")
    status, lines = judged(asking, tmp_path, PID, table)
    assert status == 2
    assert lines[0].startswith("UNKNOWN  T0 it: 0x1a4 step_end: a timed wait: it has no bound;")


def test_an_image_of_another_executable(asking: Tool, tmp_path: Path) -> None:
    words = ("examples/c/pid.toml", "--elf", "tools/fptools/testing/loops.elf")
    table = 'name = "it"\nthread = 0\nfrom = "grid_begin"\nto = "grid_end"\ncycles = 1000\n'
    status, lines = judged(asking, tmp_path, words, table)
    assert status == 2
    assert lines[0].endswith(
        "the image isn't made of tools/fptools/testing/loops.elf: make it again by `elf`"
    )


def test_a_name_that_is_no_symbol(asking: Tool, tmp_path: Path) -> None:
    status, lines = judged(asking, tmp_path, PID, section('"step"', '"step_end"'))
    assert (status, lines) == (
        2,
        ["UNKNOWN  T0 it: step is no symbol of code in examples/c/pid.elf"],
    )


def test_a_name_without_an_executable(asking: Tool, tmp_path: Path) -> None:
    _, lines = judged(asking, tmp_path, PID[:1], section('"step_begin"', '"step_end"'))
    told = "step_begin is a name, and names need an executable: give --elf FILE"
    assert lines == [f"UNKNOWN  T0 it: {told}"]


def test_unknown_counts_before_over(asking: Tool, tmp_path: Path) -> None:
    status, lines = judged(
        asking, tmp_path, PID, f"{STEP}cycles = 1", section("0x700", "0x704"), f"{STEP}cycles = 352"
    )
    assert status == 2
    assert [line.split()[0] for line in lines[:3]] == ["OVER", "UNKNOWN", "holds"]
    assert lines[3:] == [STEP_NOTE, STEP_NOTE]


def test_results_that_cannot_be_written_are_unknown(asking: Tool, tmp_path: Path) -> None:
    (tmp_path / "budgets.toml").write_text(f"[[budget]]\n{STEP}cycles = 352\n")
    with open("/dev/full", "w", encoding="ascii") as full:
        ran = subprocess.run(
            [sys.executable, TOP / "tools/fp_budget", PID[0], tmp_path / "budgets.toml", *PID[1:]], cwd=TOP,
            env=asking.environment, stdout=full, stderr=subprocess.PIPE, text=True, check=False,
        )  # fmt: skip
    assert ran.returncode not in (0, 1)
    assert ran.stderr.startswith("fp_budget: [Errno 28] No space left on device")
    assert "Traceback" not in ran.stderr


@pytest.mark.parametrize("name", ["none/x.xml", "."])
def test_a_junit_file_that_cannot_be_written(asking: Tool, tmp_path: Path, name: str) -> None:
    out = tmp_path / name
    status, lines = judged(asking, tmp_path, (*PID, "--junit", str(out)), f"{STEP}cycles = 352")
    assert (status, len(lines)) == (2, 1)
    assert lines[0].startswith(f"fp_budget: {out} can't be written: ")


def test_a_junit_file_that_the_call_reads_stays(asking: Tool, tmp_path: Path) -> None:
    out = tmp_path / "budgets.toml"
    words = (*PID, "--junit", str(tmp_path / "." / out.name))
    status, lines = judged(asking, tmp_path, words, f"{STEP}cycles = 352")
    why = f"fp_budget: {out} can't be written: this call reads it: give another name"
    assert (status, lines) == (2, [why])
    assert out.read_text().startswith("[[budget]]")


def test_a_name_that_standard_output_cannot_take(asking: Tool, tmp_path: Path) -> None:
    asking.environment["PYTHONIOENCODING"] = "ascii"
    table = STEP.replace('"step"', '"étape"') + "cycles = 352"
    status, lines = judged(asking, tmp_path, PID, table)
    assert status == 2
    assert lines[0].startswith("fp_budget: 'ascii' codec can't encode")


def test_the_junit_file(asking: Tool, tmp_path: Path) -> None:
    words = (*PID, "--junit", str(tmp_path / "budgets.xml"))
    judged(
        asking,
        tmp_path,
        words,
        f"{STEP}cycles = 352",
        f"{STEP}cycles = 1",
        section("0x700", "0x704"),
    )
    suite = ElementTree.parse(tmp_path / "budgets.xml").getroot()
    assert {name: suite.get(name) for name in ("tests", "failures", "errors")} == {
        "tests": "3",
        "failures": "1",
        "errors": "1",
    }
    assert [[child.tag for child in case] for case in suite] == [
        ["properties"],
        ["properties", "failure"],
        ["properties", "error"],
    ]
    numbers = [{it.get("name"): it.get("value") for it in case[0]} for case in suite]
    assert [[it.get(name) for name in ("bound", "budget", "slack", "ns")] for it in numbers] == [
        ["352", "352", "0", "3520"],
        ["352", "1", "-351", "3520"],
        [None, "1000", None, None],
    ]


@pytest.mark.parametrize("faulty", ["setup", "budgets", "schema", "refused"])
def test_the_junit_file_where_nothing_can_be_said(
    asking: Tool, tmp_path: Path, faulty: str
) -> None:
    setup, budgets, junit = TOP / PID[0], tmp_path / "budgets.toml", tmp_path / "budgets.xml"
    budgets.write_text(f"[[budget]]\n{STEP}cycles = {0 if faulty == 'schema' else 352}\n")
    junit.write_text("of an earlier call")
    if faulty == "setup":
        setup = tmp_path / "none\x01.toml"
    if faulty == "budgets":
        budgets.unlink()
    if faulty == "refused":
        setup = tmp_path / "setup.toml"
        setup.write_text("period = 0\n")
    ran = asking("fp_budget", setup, budgets, *PID[1:], "--junit", junit)
    assert (ran.returncode, ran.stdout) == (2, "")
    suite = ElementTree.parse(junit).getroot()
    assert (suite.get("tests"), suite.get("failures"), suite.get("errors")) == ("1", "0", "1")
    ((error,),) = suite
    assert (error.tag, f"fp_budget: {error.get('message')}\n") == (
        "error",
        ran.stderr.replace("\x01", "\ufffd"),
    )


@pytest.mark.parametrize(
    ("table", "error"),
    [
        (f"{STEP}", "budget[0]: "),
        (f"{STEP}cycles = 0", "budget[0].cycles: 0 is less than the minimum of 1"),
        (f"{STEP}cycles = 1\nns = 10", "budget[0]: "),
        (f"{STEP}cycle = 1", "budget[0]: "),
        (f"{STEP}cycles = 400.0", "budget[0].cycles: 400.0 is not of type 'integer'"),
        (section("0.0", "8"), "budget[0].from: 0.0 is not of type 'integer', 'string'"),
        (section("0", "8", "cycles = 10").replace('"it"', '"a\\u0001"'), "budget[0].name: "),
    ],
)
def test_faulty_budgets(asking: Tool, tmp_path: Path, table: str, error: str) -> None:
    status, lines = judged(asking, tmp_path, PID, table)
    assert status == 2
    assert lines[0].startswith(f"fp_budget: {tmp_path}/budgets.toml: {error}")


def test_a_file_that_is_no_toml_is_named(asking: Tool, tmp_path: Path) -> None:
    faulty = tmp_path / "faulty.toml"
    faulty.write_text("\na = = 1\n")
    error = f"fp_budget: {faulty}:2: Invalid value (at line 2, column 5)\n"
    for files in ((faulty, "examples/c/budgets.toml"), ("examples/c/pid.toml", faulty)):
        ran = asking("fp_budget", *files, "--elf", "examples/c/pid.elf")
        assert (ran.returncode, ran.stderr) == (2, error)


@pytest.mark.parametrize(
    ("sign", "shown"),
    [
        ("\u202e", "U+202E (RIGHT-TO-LEFT OVERRIDE)"),
        ("\u200b", "U+200B (ZERO WIDTH SPACE)"),
        ("\\u0007", "U+0007 (a control character)"),
        ("\\n", "U+000A (a control character)"),
    ],
)
def test_a_name_that_is_not_shown_as_it_is(
    asking: Tool, tmp_path: Path, sign: str, shown: str
) -> None:
    """Such a sign could hide or turn round what a line says. Other signs than those of ASCII are taken."""
    budgets = tmp_path / "budgets.toml"
    text = (TOP / "examples/c/budgets.toml").read_text()
    budgets.write_text(text.replace('name = "', f'name = "a{sign}b ', 1), encoding="utf-8")
    words = ("fp_budget", "examples/c/pid.toml", budgets, "--elf", "examples/c/pid.elf")
    ran = asking(*words)
    assert (ran.returncode, ran.stdout) == (2, "") and ran.stderr.count("\n") == 1
    assert "budget[0].name: 'a" in ran.stderr and f"has {shown}" in ran.stderr
    assert ran.stderr.endswith(": take it out\n") and ran.stderr.isascii()
    budgets.write_text(text.replace('name = "', 'name = "Größe 测 ', 1), encoding="utf-8")
    assert asking(*words).returncode == 0


def test_no_program(tmp_path: Path) -> None:
    """As for tools that pip installs: one line says what to build, and that the model answers too."""
    tool = Tool(TOP, "no-such-program")
    files = ("examples/c/pid.elf", "examples/c/budgets.toml", "--setup", "examples/c/pid.toml")
    for words in (
        ("fp_budget", *files),
        ("fp_budget", *files, "--all"),
        ("fp_report", *files[3:], files[1], "--elf", files[0], "-o", tmp_path / "report.html"),
        ("fp_visits", "--setup", "examples/c/pid.toml", "--thread", "0", "--cycles", "9", "--section", "0:8"),
    ):  # fmt: skip
        ran = tool(*words)
        assert (ran.returncode, ran.stdout) == (2, "") and ran.stderr.count("\n") == 1, words
        assert "the program no-such-program: No such file or directory: `./flexpret" in ran.stderr
        assert "FLEXPRET=fp_model" in ran.stderr


def test_the_examples_of_budgets_are_read(asking: Tool) -> None:
    ran = asking(
        "fp_budget", "examples/c/pid.toml", "examples/c/budgets.toml", "--elf", "examples/c/pid.elf"
    )
    assert (ran.returncode, ran.stdout) == (
        0,
        "holds    T0 a step of the controller: 352 of 400 cycles (3520 ns)\n",
    )


def test_a_permit_is_told_beside_the_results(asking: Tool, tmp_path: Path) -> None:
    table = section("0x8", "0xc")
    status, lines = judged(asking, tmp_path, ("examples/slots.toml",), table)
    write = "T0 has a permit and writes slots, modes or regions"
    assert status == 2
    assert lines[0].endswith(f"{write}: no bound is promised from then on")
    table += 'assume = ["no configuration writes"]\n'
    status, lines = judged(asking, tmp_path, ("examples/slots.toml",), table)
    assert status == 0
    assert (
        lines[1]
        == "fp_budget: T0: a permit; bounds hold while no instruction writes slots, modes or regions"
    )
    assert lines[2].startswith("fp_budget: T0 it: assumes no configuration writes: ")


def test_a_refused_setup(asking: Tool, tmp_path: Path) -> None:
    setup = tmp_path / "setup.toml"
    setup.write_text((TOP / "examples/nest.toml").read_text().replace("period = 10", "period = 0"))
    status, lines = judged(asking, tmp_path, (str(setup),), section("0x8", "0x20"))
    assert (status, lines) == (
        2,
        [f"fp_budget: {setup}:10: period: 0 is less than the minimum of 1"],
    )
