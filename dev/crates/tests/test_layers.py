"""layers.py: the drawing of the crates, and the rules of crates.txt."""
from __future__ import annotations

import subprocess
import sys
from pathlib import Path

import pytest
from fptools.testing.common import TOP

LISTED = """\
# All crates.

# low: what all use
bottom:
middle: bottom

# high: the rest
top: middle bottom thiserror
"""
DRAWN = """\
low   bottom
      middle ← bottom
high  top    ← middle
"""
PAGE = """\
# Architecture

<!-- made by dev/crates/layers.py -->
```
{drawn}```

| crate | contents |
|---|---|
| `bottom`, `middle` | the lower ones |
| `top` | the upper one |
"""
CODE = {
    "bottom": "pub fn zero() -> u8 {\n    0\n}\n",
    "middle": "ghost use Rattle.bottom.specs.Zero.{zero};\n",
    "top": "use bottom::zero;\nuse middle::one;\nuse thiserror::Error;\n",
}


@pytest.fixture
def top(tmp_path: Path) -> Path:
    """A repository of three crates whose page has their drawing."""
    (tmp_path / "crates.txt").write_text(LISTED)
    (tmp_path / "docs/dev").mkdir(parents=True)
    page_of(tmp_path).write_text(PAGE.format(drawn=DRAWN))
    for crate, text in CODE.items():
        (tmp_path / "crates" / crate / "src").mkdir(parents=True)
        (tmp_path / "crates" / crate / "src/lib.rt").write_text(text)
    return tmp_path


def page_of(top: Path) -> Path:
    return top / "docs/dev/ARCHITECTURE.md"


def ran(top: Path, *arguments: str) -> tuple[int, str]:
    """The status of the script and all that it writes."""
    call = [sys.executable, "-m", "dev.crates.layers", "--top", str(top), *arguments]
    done = subprocess.run(call, cwd=TOP, capture_output=True, text=True, check=False)
    return done.returncode, done.stdout + done.stderr


def listed(top: Path, old: str, new: str) -> None:
    """Changes the list of crates."""
    assert LISTED.count(old) == 1
    (top / "crates.txt").write_text(LISTED.replace(old, new))


def test_the_page_has_the_drawing_of_the_crates() -> None:
    status, text = ran(TOP, "--check")
    assert status == 0, text


def test_a_right_page_is_taken(top: Path) -> None:
    assert ran(top, "--check") == (0, "3 crates, 2 layers, 3 in the longest chain\n")


def test_another_drawing_is_reported_and_then_written(top: Path) -> None:
    page_of(top).write_text(PAGE.format(drawn="low   bottom\n"))
    status, text = ran(top, "--check")
    assert status == 1 and "layers.py writes it again" in text
    assert page_of(top).read_text() == PAGE.format(drawn="low   bottom\n")
    assert ran(top)[0] == 0
    assert page_of(top).read_text() == PAGE.format(drawn=DRAWN)


@pytest.mark.parametrize(
    "old, new, told",
    [
        ("bottom:\nmiddle: bottom", "middle: bottom\nbottom:", "middle uses bottom, which isn't"),
        ("# low: what all use\n", "", "bottom is in no layer"),
        ("middle: bottom", "middle: bottom arrayvec", "no file of middle names arrayvec"),
        ("middle bottom thiserror", "bottom thiserror\nmore: top", "more has no row in docs/dev/"),
    ],
)
@pytest.mark.parametrize("arguments", [[], ["--check"]])
def test_a_wrong_list_is_reported(
    top: Path, old: str, new: str, told: str, arguments: list[str]
) -> None:
    listed(top, old, new)
    status, text = ran(top, *arguments)
    assert status == 1 and f"layers.py: {told}" in text
    assert page_of(top).read_text() == PAGE.format(drawn=DRAWN)


def test_a_long_chain_is_reported(top: Path) -> None:
    names = [f"c{number}" for number in range(20)]
    lines = [f"{name}: {below}" for below, name in zip(["", *names], names)]
    (top / "crates.txt").write_text("# all: of them\n" + "\n".join(lines) + "\n")
    status, text = ran(top, "--check")
    assert status == 1 and "a chain has 20 crates" in text and "c0, c1, c2" in text


def test_a_page_without_a_place_is_reported(top: Path) -> None:
    page = PAGE.format(drawn=DRAWN)
    page_of(top).write_text(page.replace("<!-- made by dev/crates/layers.py -->", ""))
    status, text = ran(top)
    assert status == 1 and "has no place for the drawing" in text


@pytest.mark.parametrize("name", ["crates.txt", "docs/dev/ARCHITECTURE.md"])
def test_a_missing_file_is_one_line(top: Path, name: str) -> None:
    (top / name).unlink()
    status, text = ran(top, "--check")
    assert status == 2 and text == f"layers.py: {top / name}: No such file or directory\n"
