"""A tool whose Python lacks a package is run by Debian's Python."""
from __future__ import annotations

import os
import subprocess
from pathlib import Path

import pytest
from fptools.testing.common import TOOLS, TOP
from fptools import DEBIAN

ELF = TOP / "examples/c/pid.elf"


@pytest.fixture
def bare(tmp_path: Path) -> Path:
    """A Python without packages."""
    made = subprocess.run(
        [DEBIAN, "-m", "venv", "--without-pip", tmp_path / "bare"], capture_output=True, check=False
    )
    has = subprocess.run(
        [DEBIAN, "-c", "import elftools, jsonschema"], capture_output=True, check=False
    )
    if made.returncode or has.returncode:
        pytest.skip(f"{DEBIAN} has no module venv, or lacks the tools' packages")
    return tmp_path / "bare/bin/python3"


def called(*words: object, **more: str) -> subprocess.CompletedProcess[str]:
    environment = {**os.environ, **more}
    return subprocess.run(
        list(map(str, words)), capture_output=True, text=True, env=environment, check=False
    )


def test_debians_python_runs_a_tool_that_lacks_a_package(bare: Path) -> None:
    ran = called(bare, TOOLS / "fp_addresses", "--elf", ELF, "main0", "main1")
    assert (ran.returncode, ran.stderr) == (0, "") and ran.stdout.count("0x") == 2


def test_its_options_stay(bare: Path) -> None:
    """Without the folders of packages Debian's Python lacks them too."""
    ran = called(bare, "-S", TOOLS / "fp_addresses", "--elf", ELF, "main0", "main1")
    assert (
        ran.returncode == 2
        and f"fp_addresses: {bare} (Python" in ran.stderr
        and "lacks pyelftools" in ran.stderr
    )


def test_it_is_tried_once(bare: Path) -> None:
    ran = called(
        bare, TOOLS / "fp_addresses", "--elf", ELF, "main0", "main1", FLEXPRET_TRIED_DEBIAN="1"
    )
    assert ran.returncode == 2 and "lacks pyelftools" in ran.stderr


def test_what_is_no_tool_is_not_run_again(bare: Path) -> None:
    ran = called(bare, "-c", "import fptools.files.pyelf", PYTHONPATH=str(TOOLS))
    assert ran.returncode == 2 and "lacks pyelftools" in ran.stderr


def test_a_link_of_another_name_is_the_tool(bare: Path, tmp_path: Path) -> None:
    (tmp_path / "numbers").symlink_to(TOOLS / "fp_addresses")
    ran = called(bare, tmp_path / "numbers", "--elf", ELF, "main0", "main1")
    assert (ran.returncode, ran.stderr) == (0, "") and ran.stdout.count("0x") == 2


@pytest.mark.parametrize("name", ["fp_budget", "fp_evidence", "fp_stack"])
def test_an_installed_tool_names_what_pip_installs(bare: Path, name: str) -> None:
    """A virtual environment's own Python runs it, since Debian's one doesn't have the package."""
    call = f"import sys; sys.argv = ['{name}', '--help']; from fptools.commands.{name} import main"
    ran = called(bare, "-c", call, PYTHONPATH=str(TOOLS))
    assert ran.returncode == 2 and ran.stderr.startswith(f"{name}: {bare} (Python")
    assert "here: pip install pyelftools jsonschema;" in ran.stderr


def test_the_script_takes_the_first_python_with_the_packages_that_tools_use(
    bare: Path, tmp_path: Path
) -> None:
    """It needs those of each tool, and no others."""
    folder = next((bare.parent.parent / "lib").iterdir()) / "site-packages"
    words = f'. "{TOOLS}/launch.bash"; tools_python'
    path = f"{bare.parent}:{os.environ['PATH']}"
    for name in ("elftools", "jsonschema"):
        assert called("bash", "-c", words, PATH=path).stdout == f"{DEBIAN}\n"
        (folder / name).mkdir()
    assert called("bash", "-c", words, PATH=path).stdout == "python3\n"
