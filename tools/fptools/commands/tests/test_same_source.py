"""`fp_visits` and `fp_budget` answer alike, and choose among functions of one name alike."""
from __future__ import annotations

import re
import shutil
import subprocess
from pathlib import Path

import pytest
from fptools.testing.common import TOOLS, TOP, Tool

SETUP = """period = 10
image = "{folder}/own.fpx"
slots = ["T0", "T1", "D", "D", "D", "D", "D", "D"]
i_regions = ["T0", "T1", "T2", "T3", "T4", "T5", "T6", "readonly"]
d_regions = ["T0", "T1", "T2", "T3", "T4", "T5", "T6", "shared"]
[[thread]]
id = 0
mode = "hard"
entry = 0
[[thread]]
id = 1
mode = "hard"
entry = 2048
"""
SOURCE = """#include "flexpret.h"
__attribute__((noinline)) static uint32_t step(uint32_t n)
{{
    FP_LOOP(sum, 12);
    for (uint32_t i = 0; i < (n & 7); i++) {{
        FP_ROUND(sum);
        n = n * 3 + FP_PORT;
    }}
    return n;
}}
void main{thread}(void) {{ for (;;) FP_PORT = step(FP_PORT); }}
"""


@pytest.fixture(name="folder")
def folder_of(tmp_path: Path, flexpret: str, monkeypatch: pytest.MonkeyPatch) -> Path:
    """Two threads with a function of one name, and a setup without loop tables."""
    monkeypatch.setenv("FLEXPRET", flexpret)
    if shutil.which("riscv64-unknown-elf-gcc") is None or shutil.which("make") is None:
        pytest.skip("no compiler: gcc-riscv64-unknown-elf and make")
    for name in ("Makefile", "flexpret.h", "flexpret.ld", "start.s"):
        shutil.copy(TOP / "examples/c" / name, tmp_path)
    for thread in (0, 1):
        (tmp_path / f"t{thread}_own.c").write_text(SOURCE.format(thread=thread))
    words = ["make", "-s", "-C", str(tmp_path), "PROGRAM=own", f"FP_LAYOUT={TOOLS}/fp_layout"]
    words += ["OBJECTS=start.o t0_own.o t1_own.o", "OPTIONS=-O1 -g"]
    subprocess.run(words, check=True, capture_output=True)
    image = subprocess.run([flexpret, "elf", tmp_path / "own.elf"], check=True, capture_output=True)
    (tmp_path / "own.fpx").write_bytes(image.stdout)
    (tmp_path / "own.toml").write_text(SETUP.format(folder=tmp_path))
    return tmp_path


def test_a_name_that_two_threads_have(tool: Tool, folder: Path) -> None:
    elf, setup = folder / "own.elf", folder / "own.toml"
    for words in (
        ("fp_budget", elf, "--setup", setup, "--thread", 1, "--function", "step"),
        ("fp_visits", setup, "--cycles", 900, "--thread", 1, "--elf", elf, "--function", "step"),
    ):
        ran = tool(*words)
        text = ran.stdout + ran.stderr
        found = re.search(r"step is at (0x\w+) \(T0\) and (0x\w+) \(T1\): choose by", text)
        assert ran.returncode == 2 and found is not None, text
        assert f"choose by --function {found[2]}, that of T1" in text


def test_visits_have_the_bound_of_budgets(tool: Tool, folder: Path) -> None:
    elf, setup = folder / "own.elf", folder / "own.toml"
    symbols = subprocess.run(
        ["riscv64-unknown-elf-nm", elf], check=True, capture_output=True, text=True
    ).stdout
    at = min(int(it, 16) for it in re.findall(r"^(\w+) \w step$", symbols, re.M))
    ran = tool("fp_budget", elf, "--setup", setup, "--thread", 0, "--function", f"{at:#x}")
    bound = re.search(r": (\d+) cycles", ran.stdout) or re.search(r"(\d+)", ran.stdout[8:])
    assert bound is not None, ran
    words = ("--cycles", 9000, "--thread", 0, "--elf", elf, "--function", f"{at:#x}")
    seen = tool("fp_visits", setup, *words)
    assert seen.returncode == 0 and "no bound" not in seen.stdout, seen
    assert bound[1] in seen.stdout
