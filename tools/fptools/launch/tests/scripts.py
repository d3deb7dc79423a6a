"""What the tests of the scripts share: a repository of one script, with a program and an `rt` of the tests."""
from __future__ import annotations

import os
import shutil
import subprocess
import time
from pathlib import Path

from fptools.testing.common import TOOLS, TOP

PROGRAM = """#!/bin/sh
case $SEEN in
'') cat; echo "$#:$*" ;;
sleep) echo $$; exec sleep 60 ;;
lines) echo one; echo two ;;
*) [ -z "$LINE" ] || echo "$LINE"; [ -z "$COMPLAINT" ] || echo "$COMPLAINT" >&2; exit "$SEEN" ;;
esac
"""
"""A program that writes its arguments, or does what the variable SEEN says: ends with a status and lines, say."""

RT = """#!/bin/sh
case $1 in
version) echo "${RT_KIT-rattle-kit-13f logic dac8208d650f15bf}"; exit ;;
try) shift; printf '%s\\n' "$@" >"$RT_LOG.try"; cat "$RT_TRY" >&2; exit "$RT_STATUS" ;;
esac
echo "$1 ${PWD##*/}" >>"$RT_LOG"
while [ -n "$RT_WAITS" ] && [ ! -e "$RT_WAITS" ]; do sleep 0.05; done
sleep "$RT_SECONDS"
echo "done ${PWD##*/}" >>"$RT_LOG"
echo "$RT_SAYS"
[ "$RT_STATUS" = 0 ] && [ "$1" = run ] && { printf '%s' "$RT_PROGRAM" >"out/${PWD##*/}"; chmod +x "out/${PWD##*/}"; }
exit "$RT_STATUS"
"""
"""A kit that notes its calls in a log, and leaves the program of the test."""

CRATES = "low:\nbeside:\nmiddle: low beside arrayvec\nflexpret_cli: middle\nflexpret_view: middle\nother: low\n"
SELFRUN = ("selfrun", "1")
TURNS = ("turns", "x.toml", "--from", "0", "--to", "9")


class Checkout:
    """A repository of one script alone, with its tools, some crates, and a kit that do as they are told."""

    def __init__(self, folder: Path, script: str = "flexpret", crate: str = "flexpret_cli") -> None:
        self.folder = folder
        self.script = script
        self.words = SELFRUN if script == "flexpret" else TURNS
        self.out = folder / "crates" / crate / "out"
        for name in ("low", "beside", "middle", "flexpret_cli", "flexpret_view", "other"):
            (folder / "crates" / name / "src").mkdir(parents=True)
            (folder / "crates" / name / "src/lib.rt").write_text("")
        self.source = folder / "crates/low/src/lib.rt"
        (folder / "crates.txt").write_text(CRATES)
        shutil.copy(TOP / script, folder / script)
        shutil.copytree(
            TOOLS,
            folder / "tools",
            ignore=shutil.ignore_patterns("tests", "__pycache__", "fp_refusal"),
        )
        (folder / "bin").mkdir()
        (folder / "bin/rt").write_text(RT)
        (folder / "bin/rt").chmod(0o755)
        self.log = folder / "log"
        self.environment = {
            **os.environ, "PATH": f"{folder}/bin:{os.environ['PATH']}", "RT_STATUS": "0", "RT_PROGRAM": PROGRAM,
            "RT_LOG": str(self.log), "RT_SECONDS": "0", "RT_WAITS": "", "RT_SAYS": "", "RT_TRY": "/dev/null", "SEEN": "",
        }  # fmt: skip
        for name in ("FLEXPRET", "FLEXPRET_VIEW"):
            self.environment.pop(name, None)

    def build(self) -> None:
        assert self.run(*self.words).returncode == 0
        self.log.unlink(missing_ok=True)

    def run(
        self, *words: str, cwd: Path | None = None, given: str = "", **named: str
    ) -> subprocess.CompletedProcess[str]:
        return subprocess.run(
            [str(self.folder / self.script), *words], cwd=cwd or self.folder, env={**self.environment, **named}, input=given,
            capture_output=True, text=True, check=False, timeout=60,
        )  # fmt: skip

    def builds(self, *words: str) -> bool:
        """Whether a call builds."""
        self.log.unlink(missing_ok=True)
        ran = self.run(*(words or self.words))
        return self.log.exists() and "isn't built yet" in ran.stderr

    def start(self, **named: str) -> subprocess.Popen[str]:
        return subprocess.Popen(
            [self.folder / self.script, *self.words], env={**self.environment, **named}, stdin=subprocess.DEVNULL,
            stdout=subprocess.PIPE, stderr=subprocess.PIPE, text=True,
        )  # fmt: skip

    def wait_for(self, line: str) -> None:
        for _ in range(600):
            if self.log.exists() and line in self.log.read_text().splitlines():
                return
            time.sleep(0.05)
        raise AssertionError(f"{line} isn't in {self.log}")


def elf(path: Path) -> str:
    """A program of its own there, which is no script."""
    shutil.copy("/bin/echo", path)
    return str(path)
