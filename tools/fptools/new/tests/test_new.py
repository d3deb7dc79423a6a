"""fp_new: a new program builds, runs and holds, wherever its folder is."""
from __future__ import annotations

import os
import shutil
import stat
import subprocess
from pathlib import Path

import pytest
from fptools.testing.common import BUILT, TOP, Tool
from fptools.new.program import BIG, MOST_THREADS, SMALL, New

MADE = {
    "Makefile", "budgets.toml", "flexpret.h", "flexpret.ld", "motor.toml", "start.s", "t0_motor.c", "t1_motor.c",
}  # fmt: skip


def make(folder: Path, *words: str) -> subprocess.CompletedProcess[str]:
    """make, with the program, or with the model where none is built."""
    program = os.environ.get("FLEXPRET") or str(BUILT)
    named = program if os.access(program, os.X_OK) else str(TOP / "model/__main__.py")
    environment = {**os.environ, "FLEXPRET": named}
    return subprocess.run(
        ["make", "-s", *words],
        cwd=folder,
        env=environment,
        capture_output=True,
        text=True,
        check=False,
    )


@pytest.mark.parametrize(
    ("name", "words", "count", "more"),
    [
        ("motor", (), 2, ()),
        ("one_1", ("--threads", "1"), 1, ("OPTIONS=-Os -gdwarf-4",)),
        ("Seven", ("--threads", "7", "--big"), 7, ()),
        ("by_clang", ("--threads", "3"), 3, ("TOOLS=llvm",)),
    ],
)
def test_a_new_program_holds(
    tmp_path: Path, name: str, words: tuple[str, ...], count: int, more: tuple[str, ...]
) -> None:
    for program in (
        "make",
        "riscv64-unknown-elf-gcc",
        *["clang", "ld.lld"] * bool("TOOLS=llvm" in more),
    ):
        if shutil.which(program) is None:
            pytest.skip(f"{program} isn't installed")
    (tmp_path / "a folder").mkdir()
    folder = tmp_path / "a folder" / name
    ran = Tool(tmp_path)("fp_new", folder, *words)
    assert (ran.returncode, ran.stderr, len(ran.stdout.splitlines())) == (0, "", 2)
    checked = make(folder, "check", *more)
    lines = checked.stdout.splitlines()
    assert checked.returncode == 0 and len(lines) == 4 * count + 2, checked.stdout + checked.stderr
    answers = lines[count + 2 :]
    for k in range(count):
        period, step, stack = answers[3 * k : 3 * k + 3]
        assert lines[k + 1].startswith(f"T{k}      holds   1 of {count} "), lines[k + 1]
        assert stack.startswith(f"holds    T{k} stack: ")
        assert period.startswith(f"holds    T{k} the period of thread {k}: ")
        assert period.endswith(", no wait is late")
        assert step.startswith(f"holds    T{k} a step of thread {k}: ")
        assert "; the longest of 10 executions takes " in step
    assert make(folder, "run", *more).stdout.count("wait") == 10
    assert Tool(folder)("fp_lint", f"{name}.toml").returncode == 0
    assert make(folder, "clean").returncode == 0
    assert set(it.name for it in folder.iterdir()) == {
        it.replace("motor", name) for it in MADE if it[0] != "t"
    } | {f"t{it}_{name}.c" for it in range(count)}


def test_the_files_have_the_mode_of_new_ones(tmp_path: Path) -> None:
    assert Tool(tmp_path)("fp_new", "motor").returncode == 0
    (tmp_path / "own").mkdir()
    (tmp_path / "own/file").write_text("")
    for made, own in (
        (tmp_path / "motor", tmp_path / "own"),
        (tmp_path / "motor/Makefile", tmp_path / "own/file"),
    ):
        assert stat.S_IMODE(made.stat().st_mode) == stat.S_IMODE(own.stat().st_mode)
    assert {it.name for it in (tmp_path / "motor").iterdir()} == MADE
    assert f"RILLUQAR = {TOP}\n" in (tmp_path / "motor/Makefile").read_text()


@pytest.mark.parametrize(
    ("words", "why"),
    [
        (("here",), "fp_new: here: it is there already: give another name\n"),
        (
            ("9lives",),
            "fp_new: 9lives: a name is a letter, with letters, digits and _ behind it: files get it\n",
        ),
        (
            ("a name",),
            "fp_new: a name: a name is a letter, with letters, digits and _ behind it: files get it\n",
        ),
        (
            ("..",),
            "fp_new: ..: a name is a letter, with letters, digits and _ behind it: files get it\n",
        ),
        (
            ("budgets",),
            "fp_new: budgets: budgets.toml is another file of the folder: give another name\n",
        ),
        (("no/such/x",), "fp_new: no/such/x: the folder no/such isn't there\n"),
        (
            ("x", "--threads", "8"),
            "fp_new: --threads 8: 1 to 7; the last region is for all threads\n",
        ),
        (
            ("x", "--threads", "0"),
            "fp_new: --threads 0: 1 to 7; the last region is for all threads\n",
        ),
    ],
)
def test_what_is_refused(tmp_path: Path, words: tuple[str, ...], why: str) -> None:
    (tmp_path / "here").mkdir()
    ran = Tool(tmp_path)("fp_new", *words)
    assert (ran.returncode, ran.stdout, ran.stderr) == (2, "", why)
    assert [it.name for it in tmp_path.iterdir()] == ["here"]


def test_a_folder_that_takes_nothing(tmp_path: Path) -> None:
    (tmp_path / "full").write_text("")
    ran = Tool(tmp_path)("fp_new", "full/motor")
    assert (ran.returncode, ran.stderr) == (2, "fp_new: full/motor: the folder full isn't there\n")


def test_regions_and_entries_of_the_larger_scratchpads() -> None:
    small, big = New("a", MOST_THREADS, SMALL).files(), New("a", MOST_THREADS, BIG).files()
    assert small["flexpret.ld"] == (TOP / "examples/c/flexpret.ld").read_text()
    for name in ("flexpret.ld", "start.s", "a.toml"):
        assert not {"2K", "2,048", "16,384", "0x800", "version = 1"} & set(
            big[name].replace(",\n", " ").split()
        )
    assert (
        big["flexpret.ld"].count("LENGTH = 8K") == 16
        and "ORIGIN = 0x2000e000" in big["flexpret.ld"]
    )
    assert "entry = 0xc000\n" in big["a.toml"] and "version = 2 " in big["a.toml"]
