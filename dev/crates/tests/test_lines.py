"""lines.py: the lines of the crates that are wider than 100 columns."""
from __future__ import annotations

import subprocess
import sys
from pathlib import Path

import pytest
from fptools.testing.common import TOP

NAMES = "use Rattle.std.specs.Prelude.{ℕ, ◌≡◌, ◌++◌, List"


@pytest.fixture
def top(tmp_path: Path) -> Path:
    """A repository of one crate, whose lines have 100 columns and fewer."""
    for name in ("specs/Lib.antt", "src/lib.rt", "proofs/answers/Answers.antt"):
        (tmp_path / "crates/low" / name).parent.mkdir(parents=True)
        (tmp_path / "crates/low" / name).write_text("-" * 100 + "\n\n" + "ℕ" * 100 + "\n")
    return tmp_path


def ran(top: Path, *arguments: str) -> tuple[int, str]:
    """The status of the script and all that it writes."""
    call = [sys.executable, "-m", "dev.crates.lines", "--top", str(top), *arguments]
    done = subprocess.run(call, cwd=TOP, capture_output=True, text=True, check=False)
    return done.returncode, done.stdout + done.stderr


def test_the_crates_have_no_line_that_is_too_wide() -> None:
    status, text = ran(TOP, "--check")
    assert status == 0, text


def test_a_line_of_100_characters_is_taken(top: Path) -> None:
    told = "3 files, 0 lines of over 100 columns: 0 in specs, 0 in src, 0 in proofs\n"
    assert ran(top, "--check") == (0, told)
    assert ran(top, "low") == (0, told)


@pytest.mark.parametrize(
    "name, line",
    [
        ("specs/Lib.antt", NAMES + ", a" * 20 + "}"),
        ("src/lib.rt", "ghost " + NAMES + ", a" * 20 + "};"),
        ("proofs/answers/Answers.antt", "-- " + "a word " * 20),
        ("specs/Lib.antt", "name = " + " ++ ".join(f'codes "{"a" * 30}"' for _ in range(3))),
    ],
)
def test_a_wider_line_is_listed(top: Path, name: str, line: str) -> None:
    with (top / "crates/low" / name).open("a") as file:
        file.write(line + "\n")
    part = name.partition("/")[0]
    for arguments, wanted in (((), 0), (("--check",), 1), (("--check", "low"), 1)):
        status, text = ran(top, *arguments)
        row, count = text.splitlines()
        assert status == wanted and row == f"crates/low/{name}:4: {len(line)} columns"
        assert count.startswith("3 files, 1 lines") and f"1 in {part}" in count


def test_a_text_that_is_too_wide_alone_is_taken(top: Path) -> None:
    with (top / "crates/low/specs/Lib.antt").open("a") as file:
        file.write(f'name = codes "{"a" * 90}" ++ codes "b"\n')
    assert ran(top, "--check")[0] == 0


def test_a_missing_crate_is_one_line(top: Path) -> None:
    told = f"lines.py: {top / 'crates/high'}: no .rt or .antt file\n"
    assert ran(top, "high") == (2, told)
