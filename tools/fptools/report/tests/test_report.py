"""The page that fp_report writes."""
from __future__ import annotations

import json
import os
import re
import subprocess
from pathlib import Path

import pytest
from fptools.testing.common import TOP, Tool, document
from fptools.testing.modelled import HOLDS, held, program
from fptools.report.tests.pages import HOSTILE, PID, RUN, STEP, read

pytest.importorskip("jinja2", reason="jinja2 isn't installed (Debian: python3-jinja2)")

from fptools.report.promises import CHECKS, PROVED, TESTED

pytest_plugins = ["fptools.report.tests.fixtures"]


def test_the_numbers_of_a_budget_have_units(pid_page: Path) -> None:
    text = read(pid_page).text
    for part in (
        "✓ 1 holds of 1 budget; each thread with a budget ran for 10,000 cycles, which are 100 µs (10 ns a cycle)",
        "344 cycles 3.44 µs 352 cycles 3.52 µs 400 cycles 4 µs 48 cycles 12.0 % of the budget 97.7 % 12 executions",
        "assumes no traps: it is of executions without a trap (0x50 on_trap+0x34: MRET goes on where a trap was",
        "The loop at 0xf0 step_begin+0x3c goes back at most 7 times: the code counts 8 rounds."
        " In the run: 7 times, in 13 entries.",
        "Where the longest one spent its 344 cycles (3.44 µs), from cycle 120 on, by instruction:",
        "Cycles 80 to 503 of the run (800 ns to 5.04 µs).",
        "a frame is 4 cycles, 40 ns. S is for soft threads",
        "Each region has 2,048 bytes (B).",
        "T0 0x1a4 step_end 12 0 – 3.88 µs",
    ):
        assert part in text


def test_what_is_proved_and_assumed_is_on_the_page(pid_page: Path) -> None:
    text = read(pid_page).text
    for part in [*(it for pair in (*PROVED, *CHECKS) for it in pair), TESTED]:
        assert part in text


def test_the_words_are_those_of_the_assumptions() -> None:
    """Without marks, links and the names of pages."""
    page = re.sub(r"\[([^\]]*)\]\([^)]*\)", r"\1", document("ASSUMPTIONS.md").read_text())
    plain = " ".join(re.sub("[*`]", "", page).split())
    for first, second in (*PROVED, *CHECKS):
        assert first in plain and second in plain, first
    assert TESTED in plain


def test_the_same_input_gives_the_same_bytes(
    reporting: Tool, pid_page: Path, tmp_path: Path
) -> None:
    again = tmp_path / "again.html"
    tool = Tool(TOP, reporting.environment["FLEXPRET"])
    tool.environment["PYTHONHASHSEED"] = "1"
    assert tool("fp_report", *PID, *RUN, "-o", again).returncode == 0
    assert again.read_bytes() == pid_page.read_bytes()


def test_the_page_needs_no_network(pid_page: Path) -> None:
    page = read(pid_page)
    for tag, attributes in page.elements:
        assert tag not in ("img", "iframe", "object", "embed", "base")
        for name in ("src", "href", "action", "data", "poster"):
            assert (attributes.get(name) or "#").startswith(("#", "data:,")), (tag, attributes)
    text = pid_page.read_text()
    assert "@import" not in text and not re.search(r"url\((?!#)", text)
    (policy,) = (
        it["content"]
        for tag, it in page.elements
        if it.get("http-equiv") == "Content-Security-Policy"
    )
    assert policy and policy.startswith("default-src 'none'; ") and "http" not in policy


def test_no_name_of_a_machine_is_on_the_page(pid_page: Path) -> None:
    text = pid_page.read_text()
    assert str(TOP) not in text and os.uname().nodename not in text


def test_the_model_gives_the_same_page(pid_page: Path, tmp_path: Path) -> None:
    out = tmp_path / "report.html"
    assert Tool(TOP, str(program(tmp_path)))("fp_report", *PID, *RUN, "-o", out).returncode == 0
    assert out.read_bytes() == pid_page.read_bytes()


def test_names_are_only_texts(reporting: Tool, pid_page: Path, tmp_path: Path) -> None:
    budgets, out = tmp_path / "<i>&budgets.toml", tmp_path / "report.html"
    budgets.write_text(STEP.format(json.dumps(HOSTILE), 400))
    ran = reporting("fp_report", PID[0], budgets, *PID[2:], *RUN, "--title", HOSTILE, "-o", out)
    assert ran.returncode == 0, ran.stderr
    page, plain = read(out), read(pid_page)
    assert not page.open
    assert len(page.scripts) == 2 and page.scripts[1] == plain.scripts[1]
    assert [tag for tag, _ in page.elements] == [tag for tag, _ in plain.elements]
    assert page.text.count(HOSTILE) >= 4 and "<i>&budgets.toml" in page.text


def test_the_timeline_has_the_traces(reporting: Tool, pid_page: Path) -> None:
    """Each event of the window, with its cycle, word and effect, and nothing else."""
    data = read(pid_page).data
    start, end = data["start"], data["start"] + data["cycles"]
    assert (start, end, data["period"], data["frame"]) == (80, 504, 10, ["T0", "S", "T1", "S"])
    assert [row["thread"] for row in data["rows"]] == list(range(8))
    for row in data["rows"]:
        run = [reporting.environment["FLEXPRET"], "run", PID[0], "--thread", str(row["thread"])]
        trace = subprocess.run(
            [*run, "--cycles", "600"], cwd=TOP, capture_output=True, text=True, check=True
        ).stdout
        wanted = [
            (int(line[:10]), hex(int(line[11:19], 16)), line[29:])
            for line in trace.splitlines()
            if start <= int(line[:10]) < end
        ]
        cycle, found = start, []
        for gap, word, effect in zip(row["gaps"], row["words"], row["effects"]):
            cycle += gap
            found.append((cycle, data["words"][word][0], effect))
        assert found == wanted


def test_the_longest_execution_is_shown_by_source_line(reporting: Tool, tmp_path: Path) -> None:
    setup, budgets = held("taps16", tmp_path)
    out, elf = tmp_path / "report.html", HOLDS / "taps16.elf"
    loops = reporting(
        "fp_loops", elf, "--from", "work_begin", "--to", "work_end", "--src", HOLDS
    ).stdout
    setup.write_text(setup.read_text() + loops)
    words = (setup, budgets, "--elf", elf, "--src", HOLDS, "--cycles", "5000", "-o", out)
    ran = reporting("fp_report", *words)
    assert ran.returncode == 0, ran.stdout + ran.stderr
    text = read(out).text
    assert "by source line:" in text
    assert re.search(
        r"taps\.c:11 main0 for \(int i = 0; i < TAPS; i\+\+\) \d+ \d+ \d+\.\d %",
        text,
    )
    assert re.search(
        r"taps\.c:12 main0 \{ FP_ROUND\(i\); sum \+= samples\[i\]; \} \d+ \d+ \d+\.\d %", text
    )


@pytest.mark.parametrize(
    "most, more, status, word, text",
    [
        (10, "", 1, "✕ over", "84 of 10 cycles"),
        (1000, 'exits = ["nowhere"]\n', 2, "? unknown", "nowhere is no symbol of code in"),
    ],
)
def test_a_budget_that_does_not_hold_has_its_reason(
    reporting: Tool, tmp_path: Path, most: int, more: str, status: int, word: str, text: str
) -> None:
    budgets, out = tmp_path / "budgets.toml", tmp_path / "report.html"
    budgets.write_text(STEP.format('"it"', most) + more)
    ran = reporting("fp_report", PID[0], budgets, *PID[2:], *RUN, "-o", out)
    assert (ran.returncode, ran.stderr) == (status, "")
    page = read(out)
    assert word in page.text
    assert (text if status == 2 else "344 of 10 cycles") in page.text


def test_a_page_over_a_file_that_the_call_reads(reporting: Tool, tmp_path: Path) -> None:
    budgets = tmp_path / "budgets.toml"
    budgets.write_text(text := Path(PID[1]).read_text())
    ran = reporting("fp_report", PID[0], budgets, *PID[2:], *RUN, "-o", budgets)
    why = f"{budgets} can't be written: this call reads it: give another name"
    assert (ran.returncode, ran.stdout) == (2, "") and why in ran.stderr, ran.stderr
    assert budgets.read_text() == text


def test_addresses_do_without_an_executable(reporting: Tool, tmp_path: Path) -> None:
    budgets, out = tmp_path / "budgets.toml", tmp_path / "report.html"
    budgets.write_text(
        '[[budget]]\nname = "a sum"\nthread = 0\nfrom = 0x10\nto = 0x3c\nns = 2000\nassume = ["loop tables"]\n'
    )
    ran = reporting("fp_report", "examples/sum.toml", budgets, "--cycles", "2000", "-o", out)
    assert ran.returncode == 0, ran.stdout + ran.stderr
    text = read(out).text
    assert (
        "0x10 to 0x3c" in text and "184 cycles 1.84 µs 184 cycles 1.84 µs 200 cycles 2 µs" in text
    )


@pytest.mark.parametrize(
    "window, sleep",
    [
        ("0:504", "M465 0H504"),  # T0 waits in cycle 464
        ("460:1000", "M5 0H392"),  # and goes on in cycle 852
        ("800:1000", "M0 0H52"),  # the wait is before the window
    ],
)
def test_sleep_is_shown_from_the_wait_on(
    reporting: Tool, tmp_path: Path, window: str, sleep: str
) -> None:
    out = tmp_path / "report.html"
    assert reporting("fp_report", *PID, *RUN, "--window", window, "-o", out).returncode == 0
    found = [
        it["d"] for tag, it in read(out).elements if it.get("class") == "sleep" and tag == "path"
    ]
    assert found[0] == sleep


def test_a_permit_hides_the_slots(reporting: Tool, tmp_path: Path) -> None:
    budgets, out = tmp_path / "budgets.toml", tmp_path / "report.html"
    budgets.write_text('[[budget]]\nname = "it"\nthread = 0\nfrom = 0\nto = 8\ncycles = 100\n')
    ran = reporting(
        "fp_report",
        "examples/slots.toml",
        budgets,
        "--cycles",
        "200",
        "--window",
        "0:60",
        "-o",
        out,
    )
    assert ran.returncode in (0, 2) and ran.stderr == ""
    page = read(out)
    assert page.data["frame"] == []
    assert "bounds hold while no instruction writes slots, modes or regions" in page.text


def test_a_large_window_stays_below_five_megabytes(reporting: Tool, tmp_path: Path) -> None:
    out = tmp_path / "report.html"
    ran = reporting("fp_report", *PID, "--cycles", "20000", "--window", "0:20000", "-o", out)
    assert ran.returncode == 0, ran.stderr
    assert out.stat().st_size < 5_000_000
    assert sum(len(row["gaps"]) for row in read(out).data["rows"]) > 10_000
