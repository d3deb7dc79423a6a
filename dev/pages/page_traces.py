"""Checks the traces that docs/PROGRAMMING.md shows in the comments of its code.

usage: python3 -m dev.pages.page_traces [PAGE]

A block of code after a comment `<!-- trace WORDS .. -->` is a program of thread 0. The comment's first line has
settings: `confined`, `permit`, `t1=ADDRESS` (thread 1 starts there, hard) and `inputs=[[cycle, word]]`. Its further
lines are source before the block, and those after a line `after` are source behind it. In the block, `# CYCLE PC
WORD EFFECT` is a line of the trace. Each must be in the trace of `FLEXPRET`, or of the model if that isn't set. The
blocks are placed at address 0; a block of one label at 0x30, `late` or `handler`, is placed there. Status: 0 all
lines are there; 1 some aren't; 2 the page can't be read.
"""

import os
import re
import subprocess
import sys
import tempfile
from dataclasses import dataclass, field
from pathlib import Path

from dev.program import TOP

PAGE = TOP / "docs/PROGRAMMING.md"

SHOWN = re.compile(r"#\s+(\d+) ([0-9a-f]{8}) ([0-9a-f]{8}) (.*?)(\s{2,}.*)?$")
"""A line of a trace in a comment: cycle, pc, word, effect; more than one space ends it."""

HANDLERS = {"late": 0x30, "handler": 0x18}
"""Labels of handlers, with the address at which `mtvec` has them."""

SETUP = """period = 10
image = "a.fpx"
slots = ["T0", "D", "D", "D", "D", "D", "D", "D"]
i_regions = ["readonly", "readonly", "readonly", "readonly", "readonly", "readonly", "readonly", "readonly"]
d_regions = ["T0", "T1", "shared", "readonly", "readonly", "readonly", "readonly", "readonly"]
"""


@dataclass
class Block:
    """A program of the page, with the line in which its comment begins."""

    line: int
    settings: list[str]
    before: list[str] = field(default_factory=list)
    after: list[str] = field(default_factory=list)
    code: list[str] = field(default_factory=list)

    def source(self) -> str:
        """The source: comments of the block are dropped, and a handler is placed at its address."""
        lines = [*self.before]
        for line in self.code:
            text = line.split("#")[0].rstrip()
            label = text.strip().split(":")[0]
            if label in HANDLERS:
                lines.append(f".org {HANDLERS[label]:#x}")
            lines.append(text)
        return "\n".join([*lines, *self.after, ""])

    def setup(self) -> str:
        """The setup, by the settings."""
        values = dict(setting.split("=", 1) for setting in self.settings if "=" in setting)
        text = SETUP + '[[thread]]\nid = 0\nmode = "hard"\nentry = 0\n'
        text += "".join(
            f"{flag} = true\n" for flag in ("confined", "permit") if flag in self.settings
        )
        text += f"inputs = {values['inputs']}\n" if "inputs" in values else ""
        text += (
            f'[[thread]]\nid = 1\nmode = "hard"\nentry = {values["t1"]}\n' if "t1" in values else ""
        )
        return text

    def shown(self) -> list[str]:
        """The lines of the trace that the page shows, with one space between their fields."""
        found = (SHOWN.search(line) for line in self.code)
        return [" ".join(match.group(1, 2, 3, 4)) for match in found if match]


def blocks(page: str) -> list[Block]:
    """The programs of a page."""
    found: list[Block] = []
    part = "text"
    for number, line in enumerate(page.splitlines(), 1):
        if line.startswith("<!-- trace"):
            found.append(Block(number, line.removeprefix("<!-- trace").removesuffix("-->").split()))
            part = "code" if line.endswith("-->") else "before"
        elif part in ("before", "after") and line == "-->":
            part = "code"
        elif part == "before" and line == "after":
            part = "after"
        elif part in ("before", "after"):
            (found[-1].before if part == "before" else found[-1].after).append(line)
        elif part == "code" and not line.strip() and found[-1].code:
            part = "text"
        elif part == "code" and line.strip():
            found[-1].code.append(line)
    return found


def flexpret(folder: Path, *arguments: str) -> subprocess.CompletedProcess[bytes]:
    """Runs the program, or the model."""
    program = os.environ.get("FLEXPRET")
    command = [str(Path(program).resolve())] if program else [sys.executable, "-m", "model"]
    variables = {**os.environ, "PYTHONPATH": str(TOP)}
    return subprocess.run(
        [*command, *arguments], cwd=folder, env=variables, capture_output=True, check=False
    )


def wrong_lines(block: Block, folder: Path) -> list[str]:
    """The lines of a block that its trace doesn't have."""
    (folder / "a.s").write_text(block.source())
    image = flexpret(folder, "asm", "a.s")
    if image.returncode != 0:
        return [image.stdout.decode().strip() or image.stderr.decode().strip()]
    (folder / "a.fpx").write_bytes(image.stdout)
    (folder / "a.toml").write_text(block.setup())
    run = flexpret(folder, "run", "a.toml", "--thread", "0", "--cycles", "400")
    trace = [" ".join(line.split()) for line in run.stdout.decode().splitlines()]
    if run.returncode != 0 or not trace:
        return [f"run: status {run.returncode}"]
    return [line for line in block.shown() if line not in trace]


def main() -> int:
    """Checks each block of the page."""
    page = Path(sys.argv[1]) if len(sys.argv) > 1 else PAGE
    try:
        found = blocks(page.read_text())
    except OSError as error:
        print(f"page_traces.py: {error}", file=sys.stderr)
        return 2
    wrong = 0
    with tempfile.TemporaryDirectory() as folder:
        for block in found:
            for line in wrong_lines(block, Path(folder)):
                wrong += 1
                print(f"{page.name}:{block.line}: the trace doesn't have: {line}")
    lines = sum(len(block.shown()) for block in found)
    print(f"{page.name}: {len(found)} programs, {lines} lines, {wrong} differ")
    return 1 if wrong else 0


if __name__ == "__main__":
    sys.exit(main())
