"""What fp_trace shows of traces."""
from __future__ import annotations

import csv
import json
import os
import shutil
from pathlib import Path

import pytest
from fptools.testing.common import TOP, Tool
from fptools.isa.disassembly import TOOLS as OBJDUMPS
from fptools.files.trace import read_trace
from fptools.testing.modelled import make

PID = ("--setup", "examples/c/pid.toml", "--elf", "examples/c/pid.elf")
LOOPS = "tools/fptools/testing/loops.elf"
NUMBER = "give a number from 0 to 0xffffffff, as 0x40000000"
NAMES = "an executable or a map: give --elf FILE or --map FILE"


def shown(tool: Tool, *words: str, given: str = "") -> list[str]:
    """The shown lines without the header, by single blanks."""
    ran = tool("fp_trace", *words, given=given)
    assert (ran.returncode, ran.stderr) == (0, "")
    return [" ".join(line.split()) for line in ran.stdout.splitlines()[1:]]


def test_time_gap_and_symbol(tool: Tool) -> None:
    lines = shown(
        tool,
        "examples/c/pid.trace",
        *PID,
        "--objdump",
        "",
        "--pc",
        "step_end",
        "--store",
        "0x40000000",
    )
    assert lines == [
        "440 4400 +4 0000018c step_begin+0xd8 0x00e8a023 [40000000]/4=001e0000",
        "464 4640 +4 000001a4 step_end wu a1, a5 wait",
        "1176 11760 +4 0000018c step_begin+0xd8 0x00e8a023 [40000000]/4=001a0200",
        "1200 12000 +4 000001a4 step_end wu a1, a5 wait",
    ]


def test_cycles_narrow_what_is_shown(tool: Tool) -> None:
    lines = shown(
        tool,
        "examples/c/pid.trace",
        *PID,
        "--objdump",
        "",
        "--waits",
        "--from",
        "465",
        "--to",
        "1201",
    )
    assert [line.split()[0] for line in lines] == ["1200"]
    assert shown(tool, "examples/c/pid.trace", "--from", "464", "--to", "464") == []


def test_a_function_by_one_of_its_addresses(tool: Tool) -> None:
    lines = shown(
        tool, "examples/c/pid.trace", *PID, "--objdump", "", "--function", "step_end", "--to", "30"
    )
    assert [line.split()[4] for line in lines] == ["main0", "main0+0x4"]


def test_traps_have_their_cause_and_an_expiry_no_instruction(tool: Tool) -> None:
    lines = shown(tool, "examples/traps.trace", "--objdump", "", "--traps", "--period", "1")
    assert lines[0] == "20 20 +4 00000014 0x00000073 trap 11 -> 00000100 (ECALL)"
    assert lines[-1] == "468 468 +4 00000048 (none issues) trap 24 -> 00000100 (expiry)"
    assert len(lines) == 11


@pytest.mark.parametrize("objdump", OBJDUMPS)
def test_instructions_by_an_objdump(tool: Tool, objdump: str, tmp_path: Path) -> None:
    # GNU's objdump of one target reads each RISC-V, and Debian has one for 64 bits alone.
    found = shutil.which(objdump) or shutil.which(
        objdump.replace("riscv32-unknown", "riscv64-unknown")
    )
    if found is None:
        pytest.skip(f"{objdump} isn't installed")
    (tmp_path / objdump).symlink_to(found)
    tool.environment["PATH"] = f"{tmp_path}:{os.environ['PATH']}"
    lines = shown(tool, "examples/stack.trace", "--objdump", objdump, "--from", "8", "--to", "16")
    assert lines == [
        "8 80 +1 00000104 sw ra, 4(sp) [200007fc]/4=00000014",
        "9 90 +1 00000108 sw a0, 0(sp) [200007f8]/4=00000007",
        "10 100 +1 0000010c jal 0x140 x01=00000110",
        "13 130 +3 00000140 mul a0, a0, a0 x10=00000031",
        "15 150 +2 00000144 ret -",
    ]


def test_source_lines(tool: Tool) -> None:
    event = "        12 00000020 fed598e3 -\n"
    given = ("--objdump", "", "--elf", LOOPS)
    text = "for (word index = 0; index < 4; index++)"
    assert shown(tool, *given, given=event) == [
        "12 120 +0 00000020 sum_of+0x20 0xfed598e3 <sum_of+0x10> - loops.c:13"
    ]
    assert shown(tool, *given, "--src", "tools/fptools/testing", given=event)[0].endswith(
        f"loops.c:13 {text}"
    )


@pytest.mark.parametrize(
    ("words", "given", "error"),
    [
        (("--pc", "main0"), "", f"main0 is a name, and names need {NAMES}"),
        (
            ("--elf", LOOPS, "--pc", "main0+"),
            "",
            "main0+ is no address: a number, NAME or NAME+NUMBER",
        ),
        (("--elf", "README.md"), "", "README.md is no ELF file: Magic number does not match"),
        (("--elf", LOOPS, "--function", "0x4000"), "", f"0x4000 is in no function of {LOOPS}"),
        (("--function", "8"), "", "8: functions need an executable: give --elf FILE"),
        (("--store", "x"), "", f"--store x: {NUMBER}"),
        (("--store", "0x100000000"), "", f"--store 0x100000000: {NUMBER}"),
        (("--store=-4",), "", f"--store -4: {NUMBER}"),
        (("none.trace",), "", "[Errno 2] No such file or directory: 'none.trace'"),
    ],
)
def test_what_cannot_be_shown(tool: Tool, words: tuple[str, ...], given: str, error: str) -> None:
    ran = tool("fp_trace", *words, given=given)
    assert (ran.returncode, ran.stderr) == (2, f"fp_trace: {error}\n")


def test_a_setup_that_is_refused_gives_no_period(tool: Tool, tmp_path: Path) -> None:
    setup = tmp_path / "setup.toml"
    setup.write_text(
        (TOP / "examples/c/pid.toml").read_text().replace("period = 10", 'period = "10"')
    )
    ran = tool("fp_trace", "examples/c/pid.trace", "--setup", setup)
    assert (ran.returncode, ran.stdout, ran.stderr) == (
        2,
        "",
        f"fp_trace: {setup}:6: period: '10' is not of type 'integer'\n",
    )


def test_one_form_at_a_time(tool: Tool) -> None:
    ran = tool("fp_trace", "examples/c/pid.trace", "--json", "--csv")
    assert (ran.returncode, ran.stdout) == (2, "")
    assert ran.stderr.endswith("error: argument --csv: not allowed with argument --json\n")


@pytest.mark.parametrize("period", ["0", "-5", "1001"])
def test_a_period_that_no_setup_has(tool: Tool, period: str) -> None:
    assert tool("fp_trace", "examples/c/pid.trace", f"--period={period}").returncode == 2


def test_an_executable_with_other_words_is_refused(tool: Tool) -> None:
    ran = tool("fp_trace", "examples/c/pid.trace", "--elf", LOOPS, "--objdump", "")
    text = "has another word: names and lines are of another program"
    assert (ran.returncode, ran.stdout, ran.stderr) == (2, "", f"fp_trace: 0x0: {LOOPS} {text}\n")


def test_an_executable_that_the_setups_image_isnt_made_of_is_refused(tool: Tool) -> None:
    words = ("--setup", "examples/c/pid.toml", "--elf", LOOPS, "--objdump", "")
    ran = tool("fp_trace", *words, given="")
    text = f"the image isn't made of {LOOPS}: make it again by `elf`"
    assert (ran.returncode, ran.stdout) == (2, "")
    assert ran.stderr.startswith("fp_trace: 0x0 ") and ran.stderr.endswith(f": {text}\n")


def test_an_address_far_beyond_code_has_its_word_for_a_text(tool: Tool, tmp_path: Path) -> None:
    never = tmp_path / "objdump"
    never.write_text("#!/bin/sh\nexit 1\n")
    never.chmod(0o755)
    ran = tool("fp_trace", "--objdump", never, given="         0 fffffff0 00000013 -\n")
    assert (ran.returncode, ran.stderr) == (0, "")
    assert ran.stdout.splitlines()[1].split()[4] == "0x00000013"


def test_a_reader_that_stops_early_is_no_fault(tool: Tool) -> None:
    import subprocess

    lines = "awk 'BEGIN { for (c = 0; c < 200000; c++) printf \"%10d 00000000 00000013 -\\n\", c }'"
    ran = subprocess.run(
        f"{lines} | tools/fp_trace --objdump '' | head -1",
        shell=True, cwd=TOP, capture_output=True, text=True, check=False,
    )  # fmt: skip
    assert ran.stderr == ""
    assert ran.stdout.split()[0] == "cycle"


WHOLE = "         0 00000000 00000013 -\n         4 00000004 00000013 x05=00000001\n"


@pytest.mark.parametrize(
    ("broken", "text"),
    [
        ("20 0 0 -\n", "line 3 is broken: it is no event of a trace: '20 0 0 -'"),
        (
            "         8 00000008 000",
            "line 3 is broken: it has no line feed, so the trace was cut: '         8 00000008 000'",
        ),
        (
            "         4 00000008 00000013 -\n",
            "line 3 is broken: its cycle isn't above 4, the one before",
        ),
    ],
)
def test_events_before_a_broken_line_are_shown(tool: Tool, broken: str, text: str) -> None:
    ran = tool("fp_trace", "--objdump", "", given=WHOLE + broken)
    assert ran.returncode == 3
    assert [line.split()[0] for line in ran.stdout.splitlines()] == ["cycle", "0", "4"]
    assert ran.stderr.startswith(f"fp_trace: standard input: {text}")


def test_nothing_is_read_behind_the_last_cycle(tool: Tool) -> None:
    ran = tool(
        "fp_trace",
        "--objdump",
        "",
        "--to",
        "5",
        given=WHOLE + "         8 00000008 00000013 -\nrubbish",
    )
    assert (ran.returncode, ran.stderr) == (0, "")
    assert [line.split()[0] for line in ran.stdout.splitlines()] == ["cycle", "0", "4"]


LATE = """        gt   a0
        gth  a1
loop:   addi a0, a0, 80
        {wait} a1, a0
        j    loop
"""


@pytest.mark.parametrize("wait", ["wu", "du"])
def test_waits_that_come_too_late(tool: Tool, tmp_path: Path, wait: str) -> None:
    made = make(tmp_path, LATE.format(wait=wait), 60)
    assert shown(tool, str(made.trace), "--setup", str(made.setup), "--objdump", "", "--waits") == [
        f"12 120 +4 0000000c {wait} a1, a0 - (late by 40 ns)",
        f"24 240 +4 0000000c {wait} a1, a0 - (late by 80 ns)",
        f"36 360 +4 0000000c {wait} a1, a0 - (late by 120 ns)",
        f"48 480 +4 0000000c {wait} a1, a0 - (late by 160 ns)",
    ]


def test_overruns_alone(tool: Tool, tmp_path: Path) -> None:
    made = make(tmp_path, LATE.format(wait="wu").replace("80", "150"), 100)
    assert shown(tool, str(made.trace), "--setup", str(made.setup), "--overruns") == []
    assert len(shown(tool, str(made.trace), "--setup", str(made.setup), "--waits")) == 6


def test_json_a_line_an_event(tool: Tool) -> None:
    ran = tool(
        "fp_trace", "examples/traps.trace", "--json", "--objdump", "", "--from", "8", "--to", "24"
    )
    lines = [json.loads(line) for line in ran.stdout.splitlines()]
    assert [it["cycle"] for it in lines] == [8, 12, 16, 20]
    last = lines[-1]
    assert (last["pc"], last["word"], last["ns"], last["gap"]) == ("00000014", "00000073", 200, 4)
    assert (last["effect"], last["trap"]) == ("trap 11 -> 00000100", {"cause": 11, "handler": 256})
    ran = tool("fp_trace", "examples/sum.trace", "--json", "--objdump", "", "--to", "24")
    lines = [json.loads(line) for line in ran.stdout.splitlines()]
    assert (lines[0]["register"], lines[0]["value"]) == (1, 0x2000_0000)
    assert lines[-1]["store"] == {"address": 0x2000_0000, "size": 4, "value": 3}


def test_csv_a_row_an_event(tool: Tool) -> None:
    ran = tool("fp_trace", "examples/c/pid.trace", *PID, "--csv", "--objdump", "", "--waits")
    rows = list(csv.DictReader(ran.stdout.splitlines()))
    assert [(row["cycle"], row["at"], row["instruction"], row["late_ns"]) for row in rows] == [
        ("464", "step_end", "wu a1, a5", ""),
        ("1200", "step_end", "wu a1, a5", ""),
    ]


def test_labels_and_lines_of_a_map(tool: Tool, tmp_path: Path) -> None:
    names = tmp_path / "sum.map"
    assert tool("fp_asm", "examples/sum.s", "examples/sum.fpx", "--map", names).returncode == 0
    lines = shown(
        tool,
        "examples/sum.trace",
        "--map",
        str(names),
        "--objdump",
        "",
        "--pc",
        "sum",
        "--to",
        "40",
    )
    assert lines == [
        "36 360 +4 00000024 sum 0x0001a383 x07=00000003 sum.s:11 sum: lw x7, 0(x3) # 0x24: eight rounds"
    ]


def test_events_by_the_library() -> None:
    with (TOP / "examples/traps.trace").open("rb") as file:
        events = list(read_trace(file, start=20, end=33))
    assert [(event.cycle, event.gap, event.cause) for event in events] == [
        (20, 4, 11),
        (24, 4, None),
        (28, 4, None),
        (32, 4, None),
    ]
    assert (
        events[0].handler,
        events[0].issues,
        events[1].register,
        events[1].csr,
        events[1].stored,
    ) == (
        0x100,
        True,
        5,
        None,
        None,
    )


def test_a_live_pipe_is_shown_as_it_comes() -> None:
    import subprocess
    import sys

    words = [sys.executable, str(TOP / "tools/fp_trace"), "--objdump", ""]
    with subprocess.Popen(words, stdin=subprocess.PIPE, stdout=subprocess.PIPE, text=True) as ran:
        assert ran.stdin is not None and ran.stdout is not None
        assert ran.stdout.readline().split()[0] == "cycle"
        ran.stdin.write(WHOLE)
        ran.stdin.flush()
        assert ran.stdout.readline().split()[0] == "0"
        ran.stdin.close()
        assert ran.stdout.readline().split()[0] == "4"
    assert ran.returncode == 0
