"""What fp_report refuses, and what it leaves behind then."""
from __future__ import annotations

import os
import re
import signal
import subprocess
import sys
import time
from pathlib import Path

import pytest
from fptools.testing.common import TOOLS, TOP, Tool
from fptools.report.tests.pages import PID, RUN

pytest_plugins = ["fptools.report.tests.fixtures"]

pytest.importorskip("jinja2", reason="jinja2 isn't installed (Debian: python3-jinja2)")


@pytest.mark.parametrize(
    "change, said",
    [
        ({"setup": "nowhere.toml"}, "nowhere.toml"),
        ({"setup": "period = 0"}, "setup.toml:1: image: 'image' is a required property"),
        ({"setup": "period ="}, "setup.toml:1: Invalid value"),
        ({"budgets": "nowhere.toml"}, "nowhere.toml"),
        ({"budgets": "[[budget]]\nname = 1"}, "budgets.toml: budget[0]"),
        ({"budgets": "budget = []"}, "budgets.toml: budget: [] is too short"),
        ({"budgets": "[[budget]"}, "budgets.toml:1: "),
        ({"elf": "examples/big.elf"}, "the image isn't made of examples/big.elf: make it again by `elf`"),
        ({"elf": "examples/c/pid.toml"}, "examples/c/pid.toml is no ELF file"),
        ({"elf": "nowhere.elf"}, "nowhere.elf"),
        ({"out": "nowhere/report.html"}, "report.html can't be written: "),
        ({"out": "."}, " is a folder: it can't be written"),
        ({"window": "9000:10001"}, "--window 9000:10001: the run has 10000 cycles, by --cycles"),
        ({"window": "40:40"}, "--window 40:40: its end isn't above its begin"),
        ({"cycles": "30000", "window": "0:20001"}, "--window 0:20001: 20001 cycles, of 20000 at most"),
        ({"flexpret": "/bin/false"}, "run examples/c/pid.toml --thread 0: status 1"),
        ({"flexpret": "/nowhere"}, "/nowhere"),
    ],
)  # fmt: skip
def test_what_is_refused_writes_nothing(
    reporting: Tool, tmp_path: Path, change: dict[str, str], said: str
) -> None:
    """One line, status 2, and the file that was there stays."""
    kept = tmp_path / "kept"
    kept.mkdir()
    out = kept / change.get("out", "report.html")
    (kept / "report.html").write_text("as it was")
    files = {"setup": PID[0], "budgets": PID[1]}
    for what in files.keys() & change.keys():
        files[what] = change[what]
        if "=" in change[what] or "[" in change[what]:
            files[what] = str(tmp_path / f"{what}.toml")
            Path(files[what]).write_text(change[what])
    words = [
        "--elf",
        change.get("elf", PID[3]),
        "--cycles",
        change.get("cycles", "10000"),
        "-o",
        str(out),
    ]
    for option in {"window", "flexpret"} & change.keys():
        words += [f"--{option}", change[option]]
    ran = reporting("fp_report", files["setup"], files["budgets"], *words)
    lines = ran.stderr.splitlines()
    assert (ran.returncode, ran.stdout) == (2, "")
    assert len(lines) == 1 and lines[0].startswith("fp_report: ") and said in lines[0], ran.stderr
    assert [it.name for it in kept.iterdir()] == ["report.html"]
    assert (kept / "report.html").read_text() == "as it was"


@pytest.mark.parametrize(
    "words, said",
    [
        (("--window", "5"), "argument --window: invalid window A:B value: '5'"),
        (("--window", "-1:5"), "argument --window: "),
        (("--cycles", "0"), "argument --cycles: invalid number of cycles value: '0'"),
        (
            ("--cycles", "4000000001"),
            "argument --cycles: invalid number of cycles value: '4000000001'",
        ),
        ((), "the following arguments are required: -o"),
    ],
)
def test_wrong_arguments_are_named(
    tool: Tool, tmp_path: Path, words: tuple[str, ...], said: str
) -> None:
    out = ("-o", tmp_path / "report.html") if words else ()
    ran = tool("fp_report", *PID, *words, *out)
    assert ran.returncode == 2 and said in ran.stderr and not list(tmp_path.iterdir())


def test_standard_output_is_no_file_for_the_page(tool: Tool) -> None:
    """It has the verdicts, and no file named - is written."""
    ran = tool("fp_report", *PID, "-o", "-")
    assert (ran.returncode, ran.stdout) == (2, "")
    assert ran.stderr == "fp_report: -o -: name a file, since standard output has the verdicts\n"
    assert not (TOP / "-").exists()


def test_an_output_that_can_not_take_the_page(reporting: Tool) -> None:
    ran = reporting("fp_report", *PID, *RUN, "-o", "/dev/full")
    assert ran.returncode == 2
    assert ran.stderr == "fp_report: /dev/full can't be written: No space left on device\n"


def test_a_broken_run_is_refused(reporting: Tool, tmp_path: Path) -> None:
    """Bounds come from the program, and a line of its run is broken."""
    out, fake = tmp_path / "report.html", tmp_path / "flexpret"
    real = reporting.environment["FLEXPRET"]
    fake.write_text(f'#!/bin/sh\n[ "$1" != run ] || exec echo x\nexec {real} "$@"\n')
    fake.chmod(0o755)
    ran = reporting("fp_report", *PID, *RUN, "--flexpret", fake, "-o", out)
    assert (ran.returncode, ran.stdout, out.exists()) == (2, "", False)
    assert ran.stderr == "fp_report: T0: line 1 is broken: it is no event of a trace: 'x'\n"


def test_an_interrupt_leaves_nothing(reporting: Tool, tmp_path: Path) -> None:
    """Of a run that would take minutes: one line, no file and no process."""
    kept, begun, marking = tmp_path / "kept", tmp_path / "begun", tmp_path / "flexpret"
    kept.mkdir()
    real = reporting.environment["FLEXPRET"]
    marking.write_text(f'#!/bin/sh\n[ "$1" != run ] || : > {begun}\nexec {real} "$@"\n')
    marking.chmod(0o755)
    words = [
        sys.executable,
        TOOLS / "fp_report",
        *PID,
        "--cycles",
        "4000000000",
        "-o",
        kept / "report.html",
    ]
    environment = {**os.environ, "FLEXPRET": str(marking)}
    with subprocess.Popen(
        list(map(str, words)),
        cwd=TOP,
        env=environment,
        stderr=subprocess.PIPE,
        text=True,
        start_new_session=True,
    ) as child:
        for _ in range(600):
            time.sleep(0.1)
            if begun.exists():
                break
        child.send_signal(signal.SIGINT)
        _, said = child.communicate(timeout=60)
    assert child.returncode == 2 and not list(kept.iterdir())
    assert re.fullmatch(r"fp_report: .*stopped.*\n", said), said
    with pytest.raises(ProcessLookupError):
        os.killpg(child.pid, 0)


def test_a_link_keeps_leading_to_the_page(reporting: Tool, tmp_path: Path) -> None:
    (tmp_path / "real").mkdir()
    link, real = tmp_path / "report.html", tmp_path / "real/report.html"
    link.symlink_to(real)
    assert reporting("fp_report", *PID, *RUN, "-o", link).returncode == 0
    assert link.is_symlink() and real.read_text().startswith("<!doctype html>")


def test_the_installed_tool_writes_the_same_page(
    flexpret: str, pid_page: Path, tmp_path: Path
) -> None:
    if not Path(flexpret).read_bytes().startswith(b"\x7fELF"):
        pytest.skip("install.sh takes no script in place of the program")
    prefix, out = tmp_path / "prefix", tmp_path / "report.html"
    environment = {**os.environ, "FLEXPRET": flexpret, "FLEXPRET_VIEW": "/none"}
    subprocess.run([TOOLS / "install.sh", prefix], env=environment, capture_output=True, check=True)
    installed = [
        sys.executable,
        str(prefix / "lib/rilluqar/tools/fp_report"),
        *PID,
        *RUN,
        "-o",
        str(out),
    ]
    subprocess.run(installed, cwd=TOP, env=environment, capture_output=True, check=True)
    assert out.read_bytes() == pid_page.read_bytes()


def test_without_jinja2_the_package_is_named(tmp_path: Path) -> None:
    hidden = "import importlib.util as it\nfind = it.find_spec\n"
    hidden += "it.find_spec = lambda name, *more: None if name == 'jinja2' else find(name, *more)\n"
    (tmp_path / "sitecustomize.py").write_text(hidden)
    ran = subprocess.run(
        [sys.executable, TOOLS / "fp_report", "--help"], env={**os.environ, "PYTHONPATH": str(tmp_path)},
        capture_output=True, text=True, check=False,
    )  # fmt: skip
    assert ran.returncode == 2 and "apt-get install python3-jinja2" in ran.stderr
    assert "Traceback" not in ran.stderr
