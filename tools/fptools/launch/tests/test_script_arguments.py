"""The arguments of ./flexpret and ./flexpret-view, and programs from elsewhere."""
from __future__ import annotations

import subprocess
from collections.abc import Callable

import pytest
from fptools.testing.common import TOP
from fptools.launch.arguments import Fault, parse
from fptools.program.status import NOT_BUILT
from fptools.launch.view import parse as parse_view
from fptools.launch.tests.scripts import Checkout

pytest_plugins = ["fptools.launch.tests.fixtures"]

NO_OPTION_OF_VIEW = (
    "no such option before the command; these are --quiet, --unproved, --use, --version and --help"
)
NO_OPTION = NO_OPTION_OF_VIEW.replace("--quiet,", "--quiet, --model,")


@pytest.mark.parametrize(
    "words", [("--help",), ("-h",), ("help",), ("--quiet", "--help"), ("run", "--help")]
)
def test_help_waits_for_no_build(each_script: Checkout, words: tuple[str, ...]) -> None:
    ran = each_script.run(*words)
    assert (ran.returncode, ran.stderr) == (0, "")
    assert ran.stdout.startswith(f"usage: {each_script.script} ")
    assert not each_script.out.exists()


@pytest.mark.parametrize(
    ("words", "said"),
    [
        ((), "no command is named; --help shows them"),
        (("runn",), "runn: no such command; is run meant?"),
        (
            ("x",),
            "x: no such command; the commands are run, dump, phases, solo, check, bound, calls, asm, elf, selfrun, disasm",
        ),
        (("--nonsense",), f"--nonsense: {NO_OPTION}"),
        (("--quite", "run"), f"--quite: {NO_OPTION}; is --quiet meant?"),
        (("--use", ""), "--use: FILE is missing, the program to be used"),
        (("--use=", "asm"), "--use: FILE is missing, the program to be used"),
        (("--use", "a", "--use=b", "asm"), "--use is given 2 times"),
        (("run", "a", "--thread", "8", "--cycles", "1"), "--thread 8: threads are 0 to 7"),
        (("run", "a", "--thread=x", "--cycles", "1"), "--thread x: threads are 0 to 7"),
        (
            ("run", "a", "--thread", "1", "--cycles", "1e9"),
            "--cycles 1e9: a number of cycles is one to ten decimal digits, at most 4000000000",
        ),
        (
            ("bound", "a", "--thread", "1", "--from", "0X10", "--to", "4"),
            "--from 0X10: an address is decimal, or 0x and one to eight hexadecimal digits, at most 0xffffffff",
        ),
        (
            ("bound", "a", "--thread", "1", "--from", "period+8", "--to", "4"),
            "--from period+8: an address is decimal, or 0x and one to eight hexadecimal digits, at most 0xffffffff; "
            "a name needs --elf FILE or --map FILE",
        ),
        (
            ("check", "a", "--thread", "1", "--cycles", "1000001", "--trace", "t"),
            "--cycles 1000001: check compares at most 1000000 cycles",
        ),
        (("run", "a", "--thread", "1"), "run needs --cycles N"),
        (
            ("calls", "--thread", "1"),
            "calls needs SETUP and --from A and --to B and --routines FILE",
        ),
        (
            ("run", "a", "b", "--thread", "1", "--cycles", "1"),
            "b: run takes one SETUP, and a is that",
        ),
        (
            ("run", "a", "--thread", "1", "--thread", "1", "--cycles", "1"),
            "--thread is given 2 times",
        ),
        (("run", "a", "--thread"), "--thread: I is missing"),
        (
            ("run", "a", "--thraed", "1"),
            "--thraed: run has the options --thread and --cycles; is --thread meant?",
        ),
        (("asm", "x", "--output", "y"), "--output: asm has the options -o, --listing and --map"),
        (("elf", "x", "--output", "y"), "--output: elf has the option -o"),
        (("selfrun", "1", "--x"), "--x: selfrun has no options"),
        (
            ("asm", "-x.s"),
            "-x.s: asm has the options -o, --listing and --map; a file whose name begins with - is written ./-x.s",
        ),
        (
            ("check", "a", "--thread", "1", "--cycles", "1", "--trace", "-t"),
            "--trace -t: a value doesn't begin with - (write ./-t)",
        ),
        (("selfrun", "4294967296"), "selfrun 4294967296: NUMBER is decimal, at most 4294967295"),
        (("asm", ""), "an argument is empty"),
        (("asm", "a", "-o"), "-o: its value is missing"),
        (("asm", "a", "-o="), "-o: its value is missing"),
        (("asm", "a", "-o", "a", "-o=b"), "-o is given 2 times"),
        (("asm", "a", "-o", "a", "--map", "b", "--map", "c"), "--map is given 2 times"),
        (("bound", "a", "--elf", "b", "--elf="), "--elf: its value is missing"),
    ],
)
def test_the_wrong_argument_is_named_before_and_after_the_build(
    checkout: Checkout, words: tuple[str, ...], said: str
) -> None:
    ran = checkout.run(*words)
    assert (ran.returncode, ran.stdout, ran.stderr) == (2, "", f"flexpret: {said}\n")
    assert not checkout.log.exists()
    checkout.build()
    ran = checkout.run(*words, SEEN="2", COMPLAINT="flexpret: usage")
    assert (ran.returncode, ran.stdout, ran.stderr) == (2, "", f"flexpret: {said}\n")


def test_an_argument_that_is_no_text_is_named(checkout: Checkout) -> None:
    ran = subprocess.run(
        [bytes(checkout.folder / "flexpret"), b"asm", b"\xff"],
        env=checkout.environment,
        capture_output=True,
        check=False,
    )
    assert (ran.returncode, ran.stderr) == (2, b"flexpret: '\\udcff': an argument isn't UTF-8\n")


def fault_of(reader: Callable[[list[str]], object], words: list[str]) -> str | None:
    """The fault of a command line, or None."""
    try:
        reader(words)
    except Fault as fault:
        return str(fault)
    return None


def test_what_is_wrong_by_the_script_is_wrong_by_the_rows_of_the_gate() -> None:
    rows = [
        line.split("\t", 1)
        for line in (TOP / "crates/test_units/data/words.txt").read_text().splitlines()
        if "\t" in line
    ]
    assert len(rows) > 100
    for answer, call in rows:
        words = call[1:].split(" ") if call.startswith(":") else []
        assert (fault_of(parse, words) is not None) == (answer == "usage"), call


@pytest.mark.parametrize(
    ("words", "said"),
    [
        ("", "no command is named; --help shows them"),
        ("--nonsense a", f"--nonsense: {NO_OPTION_OF_VIEW}"),
        ("turn a", "turn: no such command; the commands are turns and show"),
        ("turns a --from 1", "turns needs --to CYCLE"),
        ("turns --from 1 --to 2", "turns needs SETUP"),
        ("turns a --from 1 --to x", "--to x: a cycle is decimal, at most 3999999997"),
        ("turns a --from 5 --to 5", "--from 5 --to 5: --from is below --to"),
        (
            "turns a --from 0 --to 2001 --svg x",
            "--from 0 --to 2001: a picture has at most 2000 cycles",
        ),
        ("turns a --from 0 --to 2 --svg x --vcd y", "--vcd and --svg: one form at a time"),
        ("turns a --from 0 --to 2 --state --svg x", "--svg and --state: one form at a time"),
        (
            "turns a --from 0 --to 2 --sgv x",
            "--sgv: the options are --from, --to, --konata, --vcd, --svg, --progress, --state",
        ),
        ("turns a b --from 0 --to 2", "b: turns takes one SETUP, and a is that"),
        ("turns a --from 0 --from 1 --to 2", "--from is given twice"),
        ("turns a --from 0 --to 2 --progress x", "--progress x: it is before or all"),
    ],
)
def test_the_wrong_argument_of_the_view_is_named_before_a_build(words: str, said: str) -> None:
    assert fault_of(parse_view, words.split()) == said
    assert fault_of(parse_view, "turns a --from=0 --to 2 --svg=x --progress all".split()) is None


def test_quiet_turns_lines_off(each_script: Checkout) -> None:
    ran = each_script.run("--quiet", *each_script.words)
    assert (ran.returncode, ran.stderr) == (0, "")
    assert (
        each_script.run(*each_script.words, "--quiet").stdout
        == f"{len(each_script.words)}:{' '.join(each_script.words)}\n"
    )


def test_the_version_says_commit_kit_and_whether_it_is_proved(each_script: Checkout) -> None:
    kit = "rattle-kit-13f logic dac8208d650f15bf"
    assert each_script.run("--version").stdout.splitlines() == [
        f"{each_script.script}: not built",
        f"kit here: {kit}",
    ]
    each_script.build()
    program = each_script.out / each_script.out.parent.name
    assert (
        each_script.run("--version").stdout.splitlines()[0]
        == f"{each_script.script}: commit unknown, {kit}, proved: {program}"
    )
    each_script.source.write_text("changed")
    assert "no record says from which sources it was built" in each_script.run("--version").stdout
    assert not each_script.log.exists()


def test_a_program_that_was_built_elsewhere(
    each_script: Checkout, tmp_path_factory: pytest.TempPathFactory
) -> None:
    other = tmp_path_factory.mktemp("else where") / "program"
    other.write_text('#!/bin/sh\necho other "$@"\n')
    other.chmod(0o755)
    unknown = (
        f"{each_script.script}: using {other}: no record says from which sources it was built\n"
    )
    ran = each_script.run("--use", str(other), *each_script.words)
    assert (ran.returncode, ran.stdout, ran.stderr) == (
        0,
        f"other {' '.join(each_script.words)}\n",
        unknown,
    )
    other.with_name("program.sources").write_text(
        "kit rattle-kit-9\ncommit 0123\nprogram 0 0 0 x\n"
    )
    variable = "FLEXPRET" if each_script.script == "flexpret" else "FLEXPRET_VIEW"
    each_script.environment[variable] = str(other)
    ran = each_script.run(*each_script.words)
    assert (
        ran.stderr
        == f"{each_script.script}: using {other}: built from commit 0123, by rattle-kit-9\n"
    )
    del each_script.environment[variable]
    assert each_script.run("--quiet", f"--use={other}", *each_script.words).stderr == ""
    assert "commit 0123, rattle-kit-9" in each_script.run("--use", str(other), "--version").stdout
    each_script.environment[variable] = str(other)
    assert "commit 0123, rattle-kit-9" in each_script.run("--version").stdout
    assert not each_script.log.exists()


def test_a_program_that_cannot_be_used(each_script: Checkout) -> None:
    for name in ("nosuch", "tools", "crates.txt"):
        ran = each_script.run("--use", name, *each_script.words)
        assert (ran.returncode, ran.stderr) == (
            NOT_BUILT,
            f"{each_script.script}: {name} isn't a program that can be run\n",
        )
    assert each_script.run("--use").returncode == 2


def test_the_variable_may_name_the_script_itself(each_script: Checkout) -> None:
    each_script.build()
    variable = "FLEXPRET" if each_script.script == "flexpret" else "FLEXPRET_VIEW"
    each_script.environment[variable] = str(each_script.folder / each_script.script)
    assert each_script.run(*each_script.words).stderr == ""
