"""Traces, programs and arguments that fp_visits refuses or shows in part."""
from __future__ import annotations

import os
import pty
import signal
import subprocess
import sys
from pathlib import Path

import pytest
from fptools.testing.common import TOOLS, TOP, Tool
from fptools.testing.modelled import loop_table, make, program
from fptools.visits.tests.calls import VISIT, shown


def refused(tool: Tool, *words: object, status: int = 2, given: str = "") -> str:
    ran = tool("fp_visits", *words, given=given)
    assert (ran.returncode, ran.stdout) == (status, "")
    assert ran.stderr.startswith("fp_visits: ")
    return ran.stderr.removeprefix("fp_visits: ").rstrip("\n")


@pytest.mark.parametrize(
    ("change", "fault"),
    [
        (lambda text: text[:-1], "line 201 is broken: it has no line feed, so the trace was cut"),
        (lambda text: text[:-20], "line 201 is broken: it has no line feed, so the trace was cut"),
        (lambda text: text.replace("\n       208 ", "\n       198 "), "line 53 is broken: its cycle isn't above"),
        (lambda text: text.replace("00000040 00a5b00b", "0000004g 00a5b00b"), "line 52 is broken: it is no event of a trace"),
        (lambda text: text.replace("x03=2000000c", "x03=200000c"), "line 22 is broken: it is no event of a trace"),
        (lambda text: text.replace("wait", "WAIT", 1).replace("  ", " ", 1), "line 1 is broken: it is no event of a trace"),
        (lambda text: "rubbish\n" + text, "line 1 is broken: it is no event of a trace: 'rubbish'"),
        (lambda text: text + "\0" * 5000 + "\n", "line 202 is broken: it is no event of a trace"),
        (lambda text: text + text, "line 202 is broken: its cycle isn't above 812, the one before"),
    ],
)  # fmt: skip
def test_a_broken_line_is_named_and_those_before_it_count(
    tool: Tool, tmp_path: Path, change: object, fault: str
) -> None:
    assert callable(change)
    trace = tmp_path / "it.trace"
    trace.write_text(change((TOP / "examples/sum.trace").read_text()))
    ran = tool("fp_visits", trace, "--setup", "examples/sum.toml", *VISIT)
    assert ran.returncode == 3
    assert fault in ran.stderr
    number = int(fault.split()[1])
    first = "T0: no events" if number == 1 else f"T0: {number - 1} events, "
    assert ran.stdout.startswith(first)


def test_an_empty_trace(tool: Tool) -> None:
    assert shown(tool, "--setup", "examples/sum.toml", *VISIT) == ["T0: no events"]


def test_nothing_is_read_behind_the_end(tool: Tool) -> None:
    """A stream that never ends is left."""
    endless = (
        "import itertools, sys\n"
        "for cycle in itertools.count():\n"
        "    sys.stdout.write('%10d 00000000 00000013 -\\n' % cycle)\n"
    )
    with subprocess.Popen(
        [sys.executable, "-c", endless], stdout=subprocess.PIPE, stderr=subprocess.DEVNULL
    ) as source:
        words = [sys.executable, str(TOOLS / "fp_visits"), "--to", "100000"]
        ran = subprocess.run(
            words,
            stdin=source.stdout,
            capture_output=True,
            text=True,
            check=False,
            timeout=60,
            cwd=TOP,
        )
        assert source.stdout is not None
        source.stdout.close()
        source.wait(20)
    assert (ran.returncode, ran.stderr) == (0, "")
    assert ran.stdout.startswith("-: 100000 events, cycles 0 to 99999\n")


def test_a_trace_of_another_program(tool: Tool) -> None:
    ran = tool("fp_visits", "examples/drive.trace", "--setup", "examples/sum.toml", *VISIT)
    text = (
        "0x18: the trace has the word 0000a303, the image 00008193: the trace is of another program"
    )
    assert ran.returncode == 2
    assert text in ran.stderr


def test_an_executable_of_which_the_image_isnt_made(tool: Tool) -> None:
    other = "tools/fptools/testing/calls.elf"
    words = (
        "examples/c/pid.trace",
        "--setup",
        "examples/c/pid.toml",
        "--thread",
        0,
        "--elf",
        other,
        "--no-bounds",
    )
    text = f"0x0 start: the image isn't made of {other}: make it again by `elf`"
    assert refused(tool, *words, "--section", "0x0:0x8") == text
    assert refused(tool, *words) == text


def test_a_trace_of_another_thread(tool: Tool, tmp_path: Path) -> None:
    trace = tmp_path / "it.trace"
    trace.write_text("         1 00000000 200000b7 x01=20000000\n")
    ran = tool("fp_visits", trace, "--setup", "examples/sum.toml")
    text = "cycle 1 is no turn of the thread, by the setup's slots: the trace is of another thread or setup"
    assert (ran.returncode, ran.stderr) == (2, f"fp_visits: {text}\n")


@pytest.mark.parametrize("slots", ["T0 S S S S S S S", "T0 D D D D D D D", "T0 S D D D D D D"])
def test_a_trace_with_other_slots_breaks_no_bound(tool: Tool, tmp_path: Path, slots: str) -> None:
    """The executions are longer than the bound, but that is no fault of the analyser."""
    made = make(
        tmp_path, (TOP / "examples/sum.s").read_text(), 2000, slots, more=loop_table(0x24, 0x34, 7)
    )
    made.setup.write_text(
        made.setup.read_text().replace(
            ", ".join(f'"{it}"' for it in slots.split()), '"T0", "S", "S", "S", "D", "D", "D", "D"'
        )
    )
    words = (
        made.trace,
        "--setup",
        made.setup,
        "--section",
        "0x10:0x3c",
        "--flexpret",
        program(tmp_path),
    )
    ran = tool("fp_visits", *words)
    assert ran.returncode == 2
    assert "by the setup's slots: the trace is of another thread or setup" in ran.stderr
    assert "FAULT" not in ran.stdout


@pytest.mark.parametrize(
    ("words", "error"),
    [
        (("none.trace",), "[Errno 2] No such file or directory: 'none.trace'"),
        (("--section", "0x10"), "--section 0x10: a section is A:B or NAME=A:B"),
        (("--section", "0x10:0x8"), "--section 0x10:0x8: its end 0x8 isn't above its begin 0x10"),
        (
            ("--section", "main:0x8"),
            "main is a name, and names need an executable or a map: give --elf FILE or --map FILE",
        ),
        (("--function", "8"), "8: functions need an executable: give --elf FILE"),
        (("--function", "main"), "main: functions need an executable: give --elf FILE"),
        (
            ("--elf", "tools/fptools/testing/loops.elf", "--function", "0x4000"),
            "0x4000 is in no function of tools/fptools/testing/loops.elf",
        ),
        (("--setup", "none.toml"), "[Errno 2] No such file or directory: 'none.toml'"),
        (("--setup", "examples/c/pid.toml"), "--thread is needed: the setup has more than one"),
        (("--elf", "README.md"), "README.md is no ELF file: Magic number does not match"),
    ],
)
def test_what_cannot_be_asked(tool: Tool, words: tuple[str, ...], error: str) -> None:
    assert refused(tool, *words) == error


@pytest.mark.parametrize(
    "words",
    [("--cycles", "10"), ("x", "--cycles", "10", "--setup", "y"), ("--budgets", "x"), ("--json", "--csv"), ("--cycles", "4e9"),
     ("--thread", "8")],
)  # fmt: skip
def test_usage(tool: Tool, words: tuple[str, ...]) -> None:
    ran = tool("fp_visits", *words)
    assert ran.returncode == 2
    assert ran.stderr.startswith("usage: ")


def test_a_run_that_the_program_refuses(tool: Tool, tmp_path: Path) -> None:
    words = ("--setup", "examples/sum.toml", "--cycles", "10", *VISIT)
    script = tmp_path / "refuses"
    script.write_text("#!/bin/sh\necho refused image 2 Magic 0\nexit 4\n")
    script.chmod(0o755)
    text = "run examples/sum.toml --thread 0: status 4: refused image 2 Magic 0"
    assert refused(tool, *words, "--flexpret", script) == text
    assert "No such file" in refused(tool, *words, "--flexpret", tmp_path / "none")


def test_progress_is_shown_on_a_terminal_alone(tmp_path: Path) -> None:
    lines = (f"{cycle:10d} 00000000 00000013 -\n" for cycle in range(300_000))
    trace = tmp_path / "it.trace"
    trace.write_text("".join(lines))
    ours, theirs = pty.openpty()
    words = [sys.executable, str(TOOLS / "fp_visits"), str(trace)]
    ran = subprocess.run(words, stderr=theirs, stdout=subprocess.PIPE, check=False, timeout=60)
    os.close(theirs)
    told = os.read(ours, 1 << 16).decode()
    os.close(ours)
    assert ran.returncode == 0
    assert " events, cycle " in told and " a second" in told
    assert told.endswith("\r\x1b[K")


def test_a_reader_that_stops_early_is_no_fault() -> None:
    ran = subprocess.run(
        f"{sys.executable} tools/fp_visits examples/sum.trace --json | head -1",
        shell=True, cwd=TOP, capture_output=True, text=True, check=False,
    )  # fmt: skip
    assert (ran.stdout, ran.stderr) == ("{\n", "")


def test_what_was_seen_is_shown_where_it_is_stopped() -> None:
    endless = (
        "import itertools, sys\n"
        "for cycle in itertools.count():\n"
        "    sys.stdout.write('%10d 00000000 00000013 -\\n' % cycle)\n"
    )
    with subprocess.Popen(
        [sys.executable, "-c", endless], stdout=subprocess.PIPE, stderr=subprocess.DEVNULL
    ) as source:
        words = [sys.executable, str(TOOLS / "fp_visits")]
        with subprocess.Popen(
            words, stdin=source.stdout, stdout=subprocess.PIPE, stderr=subprocess.PIPE, text=True
        ) as ran:
            assert source.stdout is not None
            source.stdout.close()
            with pytest.raises(subprocess.TimeoutExpired):
                ran.communicate(timeout=3)
            ran.send_signal(signal.SIGINT)
            try:
                out, errors = ran.communicate(timeout=30)
            finally:
                ran.kill()
    assert ran.returncode == 3
    assert out.startswith("-: ") and " events, cycles 0 to " in out
    assert errors.startswith("fp_visits: standard input: stopped behind cycle ")


def test_an_image_that_is_sought_elsewhere(tool: Tool, tmp_path: Path) -> None:
    setup = tmp_path / "sum.toml"
    setup.write_text((TOP / "examples/sum.toml").read_text().replace("examples/sum.fpx", "sum.fpx"))
    text = f"sum.fpx, the image of {setup}, isn't there: it is sought from the folder of the call"
    assert refused(tool, "examples/sum.trace", "--setup", setup) == text


def test_a_terminal_is_no_trace() -> None:
    ours, theirs = pty.openpty()
    words = [sys.executable, str(TOOLS / "fp_visits")]
    ran = subprocess.run(
        words, stdin=theirs, capture_output=True, text=True, check=False, timeout=60
    )
    os.close(ours)
    os.close(theirs)
    text = "no trace: name a file, pipe one in, or run the setup by --cycles"
    assert (ran.returncode, ran.stderr) == (2, f"fp_visits: {text}\n")
