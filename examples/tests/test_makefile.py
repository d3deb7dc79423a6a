"""The Makefile of the programs in C."""
from __future__ import annotations

import shutil
import subprocess
from pathlib import Path

import pytest
from fptools.testing.common import TOP

C = TOP / "examples/c"


@pytest.mark.skipif(
    not shutil.which("riscv64-unknown-elf-gcc"), reason="gcc for RISC-V isn't installed"
)
def test_a_program_without_thread_0_is_linked_without_a_word(tmp_path: Path) -> None:
    for name in ("Makefile", "flexpret.h", "flexpret.ld"):
        shutil.copy(C / name, tmp_path)
    (tmp_path / "start1.s").write_text(
        '.section .start.t1, "ax"\n.globl start1\nstart1: j start1\n'
    )
    make = ["make", "-s", "-C", str(tmp_path), "PROGRAM=own", "OBJECTS=start1.o"]
    ran = subprocess.run(make, capture_output=True, text=True, check=False)
    assert (ran.returncode, ran.stdout + ran.stderr) == (0, "")
