"""What fp_visits measures: executions, loops, waits, bounds and budgets."""
from __future__ import annotations

import csv
import json
import subprocess
from pathlib import Path

import pytest
from fptools.testing.common import TOOLS, TOP, Tool
from fptools.testing.modelled import issues_of, loop_table, make, program, trace_of
from fptools.visits.tests.calls import VISIT, shown

SUM = ("examples/sum.trace", "--setup", "examples/sum.toml")


def test_executions_loops_and_waits(tool: Tool) -> None:
    assert shown(tool, *SUM, *VISIT) == [
        "T0: 201 events, cycles 0 to 812",
        "executions, cycles number shortest mean longest at cycle bound ratio budget",
        "visit 4 184 184.0 184 16 - - -",
        "no bound: not asked for",
        "period: 199.0 cycles, 196 to 200, jitter 4 cycles = 40 ns",
        "one began in cycle 812 and hadn't ended 0 cycles later",
        "loops, times back to the head entries least mean most at cycle table",
        "0x24 to 0x34 4 7 7.0 7 36 7",
        "waits number waited overruns latest, ns at cycle least slack, ns",
        "0x40 wu 4 4 0 - - 40",
        "goes on: period: 200.0 cycles, 200 to 200, jitter 0 cycles = 0 ns",
    ]


def test_a_bound_is_asked_for_and_compared(tool: Tool, tmp_path: Path) -> None:
    words = (*SUM, "--section", "visit=0x10:0x3c", "--flexpret", program(tmp_path))
    assert "visit 4 184 184.0 184 16 184 1.00 -" in shown(tool, *words)


def test_why_there_is_no_bound(tool: Tool, tmp_path: Path) -> None:
    words = (*SUM, "--section", "0x10:0x44", "--flexpret", program(tmp_path))
    assert "no bound: refused bound 3 TimedWait 00000040" in shown(tool, *words)


def test_a_run_of_the_program(tool: Tool, tmp_path: Path) -> None:
    words = ("--setup", "examples/sum.toml", "--cycles", "816", "--flexpret", program(tmp_path))
    assert (
        shown(tool, *words, "--section", "visit=0x10:0x3c")[2]
        == "visit 4 184 184.0 184 16 184 1.00 -"
    )
    assert (
        shown(tool, *words, "--to", "400", "--section", "0x10:0x3c")[0]
        == "T0: 100 events, cycles 0 to 396"
    )
    assert shown(tool, *words[1:], "--section", "0x10:0x3c")[0] == "T0: 200 events, cycles 0 to 808"


def test_budgets_and_names_of_an_executable(tool: Tool, tmp_path: Path) -> None:
    run = ("examples/c/pid.trace", "--setup", "examples/c/pid.toml", "--elf", "examples/c/pid.elf")
    words = (*run, "--flexpret", str(program(tmp_path)))
    lines = shown(tool, *words, "--budgets", "examples/c/budgets.toml")
    assert "a step of the controller 2 344 344.0 344 120 352 0.98 400" in lines
    assert "0xf0 to 0xfc step_begin+0x3c 2 7 7.0 7 180 7" in lines
    tight = tmp_path / "tight.toml"
    tight.write_text((TOP / "examples/c/budgets.toml").read_text().replace("4000", "3430"))
    lines = shown(tool, *words, "--budgets", tight, status=1)
    assert lines[-1] == "OVER T0 a step of the controller: 344 of 343 cycles, from cycle 120"
    tight.write_text((TOP / "examples/c/budgets.toml").read_text().replace("4000", "2000"))
    lines = shown(tool, *words, "--budgets", tight, "--to", "400", status=1)
    assert "one began in cycle 120 and hadn't ended 276 cycles later" in lines
    assert lines[-1] == "OVER T0 a step of the controller: 276 of 200 cycles, from cycle 120"


def test_a_table_that_a_run_breaks(tool: Tool, tmp_path: Path) -> None:
    setup = tmp_path / "sum.toml"
    setup.write_text((TOP / "examples/sum.toml").read_text().replace("bound = 7", "bound = 6"))
    lines = shown(tool, "examples/sum.trace", "--setup", setup, *VISIT, status=1)
    text = "went back 7 times from cycle 36 on, its table says 6; 4 entries broke it"
    assert lines[-1] == f"TABLE T0 loop 0x24 to 0x34: {text}"


def answering(folder: Path, text: str) -> Path:
    """A program that answers each question so."""
    script = folder / "answers"
    script.write_text(f"#!/bin/sh\necho {text}\n")
    script.chmod(0o755)
    return script


def test_a_bound_that_a_run_breaks_is_a_fault_of_the_analyser(tool: Tool, tmp_path: Path) -> None:
    words = ("--section", "visit=0x10:0x3c", "--flexpret", answering(tmp_path, "bound 180"))
    lines = shown(tool, *SUM, *words, status=1)
    text = "184 cycles from cycle 16, 4 times above its bound of 180, though each loop kept its table: a fault of the analyser"
    assert lines[-1] == f"FAULT T0 visit: {text}; please report it with setup, image and trace"


def test_a_bound_isnt_broken_where_a_table_was(tool: Tool, tmp_path: Path) -> None:
    setup = tmp_path / "sum.toml"
    setup.write_text((TOP / "examples/sum.toml").read_text().replace("bound = 7", "bound = 6"))
    words = ("--section", "visit=0x10:0x3c", "--flexpret", answering(tmp_path, "bound 164"))
    lines = shown(tool, "examples/sum.trace", "--setup", setup, *words, status=1)
    assert [line.split()[0] for line in lines if line.split()[0] in ("TABLE", "FAULT", "OVER")] == [
        "TABLE"
    ]


EMULATED = """
        la   t0, handler
        csrw mtvec, t0
        li   s0, 0x20000000
        li   s1, 0x40000000
begin:  lw   t1, 0(s1)
        lw   t2, 1(s0)
        sw   t1, 0(s1)
end:    j    begin
        .org 0x100
handler: li  t5, 50
h:      addi t5, t5, -1
        bnez t5, h
        csrr t6, mepc
        addi t6, t6, 4
        csrw mepc, t6
        mret
"""


def test_an_execution_with_a_trap_counts_for_its_budget(tool: Tool, tmp_path: Path) -> None:
    made = make(tmp_path, EMULATED, 3000)
    budgets = tmp_path / "budgets.toml"
    begin, end = made.labels["begin"], made.labels["end"]
    budgets.write_text(
        f'[[budget]]\nname = "it"\nthread = 0\nfrom = {begin}\nto = {end}\ncycles = 20\n'
    )
    words = (
        made.trace,
        "--setup",
        made.setup,
        "--budgets",
        budgets,
        "--flexpret",
        program(tmp_path),
    )
    lines = shown(tool, *words, status=1)
    assert "it 0 - - - - 12 - 20" in lines
    assert (
        "6 more with a trap between begin and end: 432 to 432 cycles, the longest at cycle 20; the bound ends at the trap"
        in lines
    )
    assert lines[-1] == "OVER T0 it: 432 of 20 cycles, from cycle 20"
    assert f"{begin + 4:#x} 7 24 4 misaligned load" in lines


LATE = """
        gt   a0
        gth  a1
loop:   addi a0, a0, {period}
        {wait} a1, a0
        j    loop
"""


@pytest.mark.parametrize(
    ("wait", "period", "line"),
    [
        ("wu", 120, "0xc wu 82 0 0 - - 0"),
        ("wu", 80, "0xc wu 82 0 82 3280 984 -"),
        ("wu", 2047, "0xc wu 5 5 0 - - 1927"),
        ("du", 200, "0xc du 49 49 0 - - 80"),
        ("du", 80, "0xc du 82 0 82 3280 984 -"),
    ],
)
def test_waits_and_overruns(tool: Tool, tmp_path: Path, wait: str, period: int, line: str) -> None:
    made = make(tmp_path, LATE.format(period=period, wait=wait), 1000)
    assert shown(tool, made.trace, "--setup", made.setup)[-2] == line


def test_when_a_thread_goes_on(tool: Tool, tmp_path: Path) -> None:
    """A period of 95 cycles comes to a turn of each fourth cycle 92 or 96 cycles later."""
    made = make(tmp_path, LATE.format(period=950, wait="wu"), 3000)
    assert (
        shown(tool, made.trace, "--setup", made.setup)[-1]
        == "goes on: period: 95.1 cycles, 92 to 96, jitter 4 cycles = 40 ns"
    )


def test_a_moment_whose_high_word_is_behind(tool: Tool, tmp_path: Path) -> None:
    """The time is 2^32 + 104 nanoseconds, and the moment 400."""
    lines = "         0 00000000 00000013 x11=00000000\n 429496732 00000004 00000013 x10=00000190\n 429496740 00000008 00a5b00b -\n"
    assert shown(tool, given=lines)[-1].endswith(
        "1 0 1 4294967000 429496740 -; the moment's high word is behind: is its carry added?"
    )


def test_cycles_narrow_what_is_looked_at(tool: Tool) -> None:
    lines = shown(tool, *SUM, *VISIT, "--from", "212", "--to", "600")
    assert lines[0] == "T0: 96 events, cycles 212 to 596"
    assert lines[2] == "visit 2 184 184.0 184 212 - - -"
    assert shown(tool, *SUM, *VISIT, "--from", "5000") == ["T0: no events"]


def test_json(tool: Tool, tmp_path: Path) -> None:
    ran = tool(
        "fp_visits", *SUM, "--section", "visit=0x10:0x3c", "--json", "--flexpret", program(tmp_path)
    )
    found = json.loads(ran.stdout)
    (thread,) = found["threads"]
    (section,) = thread["sections"]
    assert (found["status"], thread["thread"], thread["events"], thread["breaks"]) == (
        0,
        0,
        201,
        [],
    )
    assert section["executions"] == {
        "number": 4,
        "shortest": 184,
        "mean": 184.0,
        "longest": 184,
        "longest_at": 16,
    }
    assert (section["bound"], section["ratio"], section["period"]["jitter"]) == (184, 1.0, 4)
    assert thread["loops"][0]["backs"]["longest"] == thread["loops"][0]["bound"] == 7
    assert thread["waits"][0]["overruns"] == 0


def test_csv(tool: Tool, tmp_path: Path) -> None:
    ran = tool(
        "fp_visits", *SUM, "--section", "visit=0x10:0x3c", "--csv", "--flexpret", program(tmp_path)
    )
    (row,) = csv.DictReader(ran.stdout.splitlines())
    assert (row["name"], row["executions"], row["longest"], row["bound"], row["ratio"]) == (
        "visit",
        "4",
        "184",
        "184",
        "1.0",
    )


def test_functions_of_an_executable(tool: Tool, tmp_path: Path) -> None:
    """All functions that were called are shown; a bound is that of a call."""
    setup = tmp_path / "calls.toml"
    image = tmp_path / "calls.fpx"
    flexpret = program(tmp_path)
    image.write_bytes(
        subprocess.run(
            [flexpret, "elf", TOOLS / "fptools/testing/calls.elf"], capture_output=True, check=True
        ).stdout
    )
    text = (TOP / "examples/sum.toml").read_text()
    setup.write_text(text.replace("examples/sum.fpx", str(image)).split("[[loop]]")[0])
    words = (
        "--setup",
        setup,
        "--elf",
        "tools/fptools/testing/calls.elf",
        "--cycles",
        "4000",
        "--flexpret",
        flexpret,
    )
    lines = shown(tool, *words, status=2)
    trap = (
        "the execution from cycle 3988 didn't end: trap 3 breakpoint in cycle 3992 at 0x24 broken"
    )
    assert (
        [it for it in lines if it.startswith("UNKNOWN")]
        == [lines[0]]
        == [f"UNKNOWN T0 broken: {trap}"]
    )
    assert "inner 111 12 12.0 12 8 12 1.00 -" in lines
    assert "outer 111 28 28.0 28 0 28 1.00 -" in lines
    assert not any(line.startswith("start ") for line in lines)


def test_a_loop_that_the_code_has_and_no_table(tool: Tool, tmp_path: Path) -> None:
    setup = tmp_path / "sum.toml"
    setup.write_text((TOP / "examples/sum.toml").read_text().split("[[loop]]")[0])
    lines = shown(tool, "examples/sum.trace", "--setup", setup, *VISIT)
    assert "0x24 to 0x34 4 7 7.0 7 36 none" in lines


def test_a_permit_is_told_with_a_broken_bound(tool: Tool, tmp_path: Path) -> None:
    made = make(tmp_path, EMULATED.replace("lw   t2, 1(s0)", "nop"), 1000, more=loop_table(0, 0, 0))
    text = made.setup.read_text().replace("confined = true", "permit = true")
    made.setup.write_text(text)
    made.trace.write_bytes(trace_of(issues_of(text, made.image, 1000)))
    section = f"it={made.labels['begin']}:{made.labels['end']}"
    lines = shown(
        tool,
        made.trace,
        "--setup",
        made.setup,
        "--section",
        section,
        "--flexpret",
        answering(tmp_path, "bound 4"),
        status=1,
    )
    assert (
        "a thread has a permit, and a bound holds only while no slots, modes or regions are written"
        in lines[-1]
    )


def test_delays_without_known_turns(tool: Tool, tmp_path: Path) -> None:
    """That a DU is late is said where it was by the lag of the issue before."""
    early = make(tmp_path, LATE.format(period=200, wait="du"), 1000)
    assert shown(tool, early.trace)[-2] == "0xc du 49 49 0 - - 110"
    late = make(tmp_path, LATE.format(period=20, wait="du"), 1000)
    assert shown(tool, late.trace)[-2].startswith("0xc du 82 0 82")
