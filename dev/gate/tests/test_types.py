"""The types of the tools, the tests, the model and the scripts, as mypy --strict has them, and what pyflakes finds.

Both are pinned to what Debian 12 ships, since other versions find other things."""
from __future__ import annotations

import re
import shutil
import subprocess
from pathlib import Path

import pytest
from fptools.testing.common import TOOLS, TOP

MYPY, PYFLAKES = "1.0.1", "2.5.0"
"""The versions of Debian 12."""

SCRIPTS = [
    str(it)
    for it in sorted(
        [*TOOLS.glob("fp_*"), *TOOLS.glob("*.py"), TOP / "rtl/simulate", TOP / "conftest.py"]
    )
]
EXAMPLES = [str(it) for it in sorted((TOP / "examples").glob("*/*.py"))]
PARTS = {
    "packages": ["-p", "fptools", "-p", "dev", "-p", "model"],
    "scripts": SCRIPTS,
    "examples": EXAMPLES,
}
"""What mypy checks in each of its calls."""


def pinned(tool: str, package: str, version: str) -> str:
    """The tool's name, if it is there in the version that is asked for; else the test is skipped."""
    if shutil.which(tool) is None:
        pytest.skip(f"{tool} isn't installed (Debian: {package})")
    said = subprocess.run([tool, "--version"], capture_output=True, text=True, check=False).stdout
    if version not in said.split():
        pytest.skip(f"{tool} is not {version} (Debian 12: {package})")
    return tool


@pytest.fixture(scope="module")
def cache(tmp_path_factory: pytest.TempPathFactory) -> Path:
    return tmp_path_factory.mktemp("mypy")


@pytest.mark.parametrize("part", PARTS)
def test_types_are_strict(part: str, cache: Path) -> None:
    mypy = [
        pinned("mypy", "mypy", MYPY),
        "--strict",
        "--scripts-are-modules",
        f"--cache-dir={cache}",
    ]
    ran = subprocess.run(
        [*mypy, *PARTS[part]], cwd=TOP, capture_output=True, text=True, check=False
    )
    assert ran.returncode == 0, ran.stdout


def test_pyflakes_finds_nothing() -> None:
    pyflakes = pinned("pyflakes3", "pyflakes3", PYFLAKES)
    folders = (TOOLS / "fptools", *(TOP / it for it in ("dev", "examples", "model", "rtl")))
    files = [str(it) for folder in folders for it in sorted(folder.rglob("*.py"))]
    ran = subprocess.run([pyflakes, *files, *SCRIPTS], capture_output=True, text=True, check=False)
    assert (ran.returncode, ran.stdout) == (0, "")


def test_the_tools_do_without_the_model() -> None:
    """Only tests, what tests share, and the command that calls it import the model."""
    files = [
        it for it in (TOOLS / "fptools").rglob("*.py") if not {"tests", "testing"} & set(it.parts)
    ]
    users = [
        it.name
        for it in files
        if re.search(r"^\s*(from|import) model\b", it.read_text(), re.MULTILINE)
    ]
    assert users == ["fp_model.py"]
