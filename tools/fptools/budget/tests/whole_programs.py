"""A program in C with threads of all kinds, for tests of answers for all hard threads."""
from __future__ import annotations

import os
import re
import shutil
import subprocess
from pathlib import Path

import pytest
from fptools.testing.common import Tool

NEXT = "    uint64_t next = fp_get_time();\n"
SOURCES = {
    0: "for (;;) { FP_PORT = FP_PORT * 3; next += 20000; fp_wait_until(next); }",
    1: "for (;;) { next += 9000; fp_wait_until(next); }",  # of a soft thread
    2: "(void)next; for (uint32_t n = 0;; n++) FP_PORT = n;",
}
LOOP = """
__attribute__((noinline)) static uint32_t sum(uint32_t n)
{
    uint32_t all = 0;
    FP_LOOP(one, 12);
    for (uint32_t k = 0; k < n % 13; k++) { FP_ROUND(one); all += FP_PORT; }
    return all;
}
"""


class Whole:
    """A folder of fp_new with other sources."""

    def __init__(
        self, folder: Path, flexpret: str, sources: dict[int, str], more: str = ""
    ) -> None:
        for name in ("make", "riscv64-unknown-elf-gcc"):
            if shutil.which(name) is None:
                pytest.skip(f"{name} isn't installed")
        self.folder = folder / "it"
        self.tool = Tool(self.folder, flexpret)
        made = Tool(folder)("fp_new", "it", "--threads", len(sources))
        assert made.returncode == 0, made.stderr
        for thread, body in sources.items():
            text = f'#include "flexpret.h"\n{more}'
            text += f"void main{thread}(void)\n{{\n{NEXT}    {body}\n}}\n"
            (self.folder / f"t{thread}_it.c").write_text(text)
        ran = subprocess.run(
            ["make", "-s"],
            cwd=self.folder,
            env={**os.environ, "FLEXPRET": flexpret},
            capture_output=True,
            text=True,
            check=False,
        )
        assert ran.returncode == 0, ran.stderr
        (self.folder / "budgets.toml").rename(self.folder / "made.toml")
        self.setup = (self.folder / "it.toml").read_text()

    def change(self, pattern: str, new: str, count: int = 1) -> None:
        """Changes the setup."""
        self.setup, number = re.subn(pattern, new, self.setup, count, re.DOTALL)
        assert number
        (self.folder / "it.toml").write_text(self.setup)

    def __call__(self, *words: object) -> subprocess.CompletedProcess[str]:
        return self.tool("fp_budget", "it.elf", *words, "--setup", "it.toml")
