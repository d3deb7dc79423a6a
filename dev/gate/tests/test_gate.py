"""What ./test counts, chooses and skips."""
from __future__ import annotations

import os
import subprocess
import sys
from pathlib import Path

import pytest
from fptools.testing.common import TOP


from dev.gate import gate
from dev.gate.gate import Place, Sum, counted, interpreter, run_part
from dev.gate.parts import MODULES, Part, parts

SCRIPT = Part("script", ["x"])
TESTS = Part("tests", ["x"], tests="tools/fptools")


@pytest.mark.parametrize(
    ("part", "status", "said", "line"),
    [
        (SCRIPT, 0, "", "1 passed, 0 failed"),
        (SCRIPT, 1, "wrong", "0 passed, 1 failed"),
        (SCRIPT, 0, "SKIPPED [1] a.py: black is not 1.0\n", "0 passed, 0 failed, 1 skipped"),
        (SCRIPT, 0, "as shown: a\nas shown: b\n", "2 passed, 0 failed"),
        (SCRIPT, 1, "as shown: a\ndiffers: b\n", "1 passed, 1 failed"),
        (SCRIPT, 1, "as shown: a\nkilled\n", "1 passed, 1 failed"),
        (
            SCRIPT,
            1,
            "a.txt: 10 compared, 2 not, 3 differ\nb: 5 compared, 0 differ\n",
            "12 passed, 3 failed",
        ),
        (
            SCRIPT,
            0,
            "x: 97 calls at the edge of the program, 0 differences\n",
            "97 passed, 0 failed",
        ),
        (TESTS, 0, "12 passed in 3.40s\n", "12 passed, 0 failed"),
        (TESTS, 0, "====== 12 passed, 1 warning in 3.40s ======\n", "12 passed, 0 failed"),
        (TESTS, 1, "2 failed, 12 passed, 1 skipped in 83.40s (0:01:23)\n", "12 passed, 2 failed"),
        (TESTS, 1, "FAILED a.py::test_b - x in 2.0s\n1 failed in 3.40s\n", "0 passed, 1 failed"),
        (TESTS, 1, "12 passed, 3 errors in 3.40s\n", "12 passed, 3 failed"),
        (TESTS, 2, "1 error in 3.40s\n", "0 passed, 1 failed"),
        (TESTS, 4, "no such file\n", "0 passed, 1 failed"),
        (
            TESTS,
            0,
            "SKIPPED [4] a.py:3: no x\n8 passed, 4 skipped in 1.00s\n",
            "8 passed, 0 failed, 4 skipped",
        ),
    ],
)
def test_the_tests_of_a_part_are_counted(part: Part, status: int, said: str, line: str) -> None:
    assert counted(part, status, said).line() == line


def test_a_part_without_its_tool_is_skipped_by_name() -> None:
    place = Place(sys.executable, dict(os.environ), built=False)
    _, found, _, _ = run_part(
        Part("p", ["false"], commands=["no-such-tool"], programs=False), place
    )
    assert found.skipped == [(1, "p: no-such-tool is not installed")]
    _, found, _, _ = run_part(Part("p", ["false"]), place)
    assert found.skipped == [(1, "p: the programs are not built")]


def test_tests_without_pytest_are_skipped_with_their_number(tmp_path: Path) -> None:
    python = tmp_path / "python"
    python.write_text("#!/bin/sh\nexit 1\n")
    python.chmod(0o755)
    (tests,) = (part for part in parts(1) if part.name == "tools")
    _, found, _, _ = run_part(tests, Place(str(python), dict(os.environ), built=True))
    ((count, why),) = found.skipped
    assert count > 100
    assert "pytest is not installed" in why
    assert (
        "(Debian: python3-pytest python3-pyelftools python3-jsonschema python3-networkx python3-hypothesis)"
        in why
    )


def test_the_first_python_with_the_modules_is_taken(
    tmp_path: Path, monkeypatch: pytest.MonkeyPatch
) -> None:
    bare = tmp_path / "bare"
    bare.write_text("#!/bin/sh\nexit 1\n")
    bare.chmod(0o755)
    monkeypatch.setenv("PYTHON", str(bare))
    assert interpreter(["pytest"]) == sys.executable
    assert "pytest" in MODULES


def test_the_sum_names_the_reasons_once() -> None:
    total = Sum(skipped=[(1, "no x"), (2, "no y"), (3, "no x")])
    assert dict(total.reasons()) == {"no x": 4, "no y": 2}


def test_the_last_line_is_the_sum() -> None:
    words = [str(TOP / "test"), "--only", "dev/mutants/edits.py", "--no-install"]
    ran = subprocess.run(words, capture_output=True, text=True, check=False)
    assert (ran.returncode, ran.stdout.splitlines()[-1]) == (0, "1 passed, 0 failed")


def test_without_rt_the_other_parts_run(
    tmp_path: Path, monkeypatch: pytest.MonkeyPatch, capsys: pytest.CaptureFixture[str]
) -> None:
    monkeypatch.setenv("PATH", str(tmp_path))
    (tmp_path / "crates.txt").write_text("program:\n")
    monkeypatch.setattr(gate, "TOP", tmp_path)
    monkeypatch.setattr(gate, "PROGRAMS", {"PROGRAM": "program"})
    monkeypatch.setattr(
        gate, "parts", lambda jobs: [Part("p", [sys.executable, "-c", ""], programs=False)]
    )
    monkeypatch.setattr(sys, "argv", ["test", "--no-install"])
    monkeypatch.setattr(gate, "RECORD", tmp_path / "record.json")
    assert gate.main() == 1
    assert not gate.RECORD.exists()
    first, second, *_, last = capsys.readouterr().out.splitlines()
    assert first == (
        "./test: rt ci can't be run (No such file or directory): put rt of the kit that README.md names on the PATH, or leave it out by --no-ci"
    )
    assert second.startswith("p: 1 passed, 0 failed, ")
    assert last == "1 passed, 1 failed"


def test_only_a_program_that_was_built_meanwhile_is_recorded(
    tmp_path: Path, monkeypatch: pytest.MonkeyPatch
) -> None:
    (tmp_path / "crates.txt").write_text("old:\nnew:\n")
    monkeypatch.setattr(gate, "TOP", tmp_path)
    monkeypatch.setattr(gate, "PROGRAMS", {"OLD": "old", "NEW": "new"})
    for crate in ("old", "new"):
        (tmp_path / f"crates/{crate}/out").mkdir(parents=True)
    gate.program_of("old").write_text("")
    os.utime(gate.program_of("old"), (1, 1))
    with gate.stamped():
        gate.program_of("new").write_text("")
    assert not (tmp_path / "crates/old/out/old.sources").exists()
    assert (tmp_path / "crates/new/out/new.sources").exists()


def test_an_unknown_part_is_named() -> None:
    ran = subprocess.run([TOP / "test", "--only", "x"], capture_output=True, text=True, check=False)
    assert ran.returncode == 1
    assert ran.stderr.startswith("./test: --only x: the parts are ")
