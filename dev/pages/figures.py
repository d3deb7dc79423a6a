"""Draws the figures of the documents as SVG, into docs/ or another folder.

usage: python3 -m dev.pages.figures [--check] [FOLDER]

`pipeline.svg` and `frame.svg` are drawn from the dumps of a run, `memory.svg` from the rules of regions, which the
model has, over examples/c/pid.toml. `section.svg` and `flow.svg` are drawn from the lists in this file. FLEXPRET
names the program; without it the model runs. With --check nothing is written: status 1 if a stored figure differs.
"""

import argparse
import os
import subprocess
import sys
import tempfile
from dataclasses import dataclass, field
from html import escape
from pathlib import Path

from dev.program import TOP

from fptools.svg import element, picture, written

from model.registers import Regions
from model.setups import Setup, read_setup

DATA = 0x2000_0000
"""The first address of the data scratchpad."""

STYLE = """<style>
text{font:12px sans-serif;fill:#222}
.m{font:12px monospace}
.s{font-size:11px;fill:#555}
.b{font-weight:bold}
.c{text-anchor:middle}
line,path{stroke:#444;fill:none}
.g{stroke:#ddd}
.r{stroke:#d62728;stroke-width:2}
.w{stroke:#2ca02c;stroke-width:2}
</style>"""

BLUE, GREEN, GREY, RED, YELLOW = "#cfe0f3", "#d5ecd4", "#eee", "#f6d5d5", "#fbeec2"


@dataclass
class Figure:
    """A picture of a width and height in pixels, with its title for those who can't see it."""

    width: int
    height: int
    title: str
    parts: list[str] = field(default_factory=list)

    def text(self, x: float, y: float, words: str, kind: str = "") -> None:
        """Writes a text with its baseline at y."""
        self.parts.append(written(words, x=x, y=y, class_=kind))

    def box(self, x: float, y: float, width: float, height: float, fill: str) -> None:
        """Draws a box."""
        self.parts.append(
            element("rect", x=x, y=y, width=width, height=height, fill=fill, stroke="#666")
        )

    def line(self, start: tuple[float, float], end: tuple[float, float], kind: str) -> None:
        """Draws a line."""
        self.parts.append(
            element("line", x1=start[0], y1=start[1], x2=end[0], y2=end[1], class_=kind)
        )

    def labelled(
        self, x: float, y: float, size: tuple[float, float], fill: str, words: str
    ) -> None:
        """Draws a box with a text in its middle."""
        self.box(x, y, *size, fill)
        self.text(x + size[0] / 2, y + size[1] / 2 + 4, words, "c")

    def arrow(self, points: list[tuple[float, float]], kind: str = "") -> None:
        """Draws an arrow along points."""
        way = " ".join(f"{'L' if index else 'M'}{x:g},{y:g}" for index, (x, y) in enumerate(points))
        head = {"r": "red", "w": "green"}.get(kind, "black")
        self.parts.append(element("path", d=way, class_=kind, marker_end=f"url(#{head})"))

    def svg(self) -> str:
        """The whole file."""
        size = {"markerWidth": 8.0, "markerHeight": 8.0, "refX": 7.0, "refY": 4.0}
        form = {"orient": "auto", "markerUnits": "userSpaceOnUse"}
        heads = (
            element(
                "marker",
                element("path", d="M0,0 L8,4 L0,8 z", style=f"fill:{colour};stroke:none"),
                id=name,
                **size,
                **form,
            )
            for name, colour in (("black", "#444"), ("red", "#d62728"), ("green", "#2ca02c"))
        )
        return picture(
            element("title", escape(self.title)),
            STYLE,
            element("defs", *heads),
            element("rect", width="100%", height="100%", fill="#fff"),
            *self.parts,
            width=self.width,
            height=self.height,
            viewBox=f"0 0 {self.width} {self.height}",
            role="img",
        )


def flexpret(folder: Path, *arguments: str) -> bytes:
    """The output of the program, or of the model."""
    program = os.environ.get("FLEXPRET")
    command = [str(Path(program).resolve())] if program else [sys.executable, "-m", "model"]
    done = subprocess.run(
        [*command, *arguments],
        cwd=folder,
        env={**os.environ, "PYTHONPATH": str(TOP)},
        capture_output=True,
        check=False,
    )
    if done.returncode != 0:
        sys.exit(f"figures.py: {' '.join(arguments)}: status {done.returncode}")
    return done.stdout


def turn(folder: Path, setup: str, cycle: int) -> list[str]:
    """The turn of a cycle in the dump: `-`; a thread and `flushed`; or a thread, its pc and its word."""
    lines = flexpret(folder, "dump", setup, "--cycles", str(cycle + 2)).decode().splitlines()
    return lines[2].split()[1:]


LOOP = """        lui  x1, 0x20000
        lw   x5, 0(x1)
        addi x6, x5, 1
        bnez x6, on
        nop
        nop
on:     sw   x6, 0(x1)
"""

LOOP_SETUP = """period = 10
image = "a.fpx"
slots = ["T0", "D", "D", "D", "D", "D", "D", "D"]
i_regions = ["readonly", "readonly", "readonly", "readonly", "readonly", "readonly", "readonly", "readonly"]
d_regions = ["T0", "T1", "shared", "readonly", "readonly", "readonly", "readonly", "readonly"]
[[thread]]
id = 0
mode = "hard"
entry = 0
"""


FORWARDS = ((0, 2, 1, 1, 0), (1, 3, 3, 1, 0), (3, 2, 4, 1, 0), (4, 2, 7, 0, 14))
"""The arrows of the pipeline: a row and a stage, the row and stage that they lead to, and how far right they begin."""

PIPELINE_NOTES = (
    "Green: a value is forwarded to D, from E or, for a load, from M."
    " The load's value is late, so the turn of cycle 2 is lost.",
    "Red: the taken branch redirects fetch when it is in E."
    " The turns of the cycles 5 and 6 are lost: the lag is 3.",
    "A thread whose slots are three or more cycles apart loses no turn.",
)


def pipeline() -> Figure:
    """The five stages over the cycles of a short program of a thread with all slots."""
    with tempfile.TemporaryDirectory() as name:
        folder = Path(name)
        (folder / "a.s").write_text(LOOP)
        (folder / "a.toml").write_text(LOOP_SETUP)
        (folder / "a.fpx").write_bytes(flexpret(folder, "asm", "a.s"))
        turns = [turn(folder, "a.toml", cycle) for cycle in range(8)]
    texts = [" ".join(line.split(":")[-1].split()) for line in LOOP.splitlines()]
    left, wide, high, above = 190, 40, 26, 48
    figure = Figure(
        left + 12 * wide + 20,
        above + 8 * high + 66,
        "The pipeline with forwarding, a late value and a redirect",
    )
    figure.text(10, 20, "cycle", "s")
    for cycle in range(12):
        figure.text(left + (cycle + 0.5) * wide, 20, str(cycle), "c s")
    for row, shown in enumerate(turns):
        top = above + row * high
        flushed = shown[1:] == ["flushed"]
        what = "lost turn" if flushed else f"{shown[1][-2:]}  {texts[int(shown[1], 16) // 4]}"
        figure.text(10, top + 17, what, "s" if flushed else "m")
        for stage, letter in enumerate("FD" if flushed else "FDEMW"):
            colour = GREY if flushed else BLUE
            figure.labelled(left + (row + stage) * wide, top, (wide, high - 4), colour, letter)

    def centre(row: int, stage: int) -> tuple[float, float]:
        return left + (row + stage + 0.5) * wide, above + row * high + (high - 4) / 2

    for producer, stage, consumer, consumed, side in FORWARDS:
        x, y = centre(producer, stage)
        to_x, to_y = centre(consumer, consumed)
        figure.arrow([(x + side, y + 11), (to_x, to_y - 11)], "r" if side else "w")
    for row, words in enumerate(PIPELINE_NOTES):
        figure.text(10, above + 8.0 * high + 18 * (row + 1), words, "s")
    return figure


def frame() -> Figure:
    """The owners of the cycles of the control loop of examples/drive.toml while T0 sleeps."""
    first, last, wide = 44, 76, 24
    turns = [turn(TOP, "examples/drive.toml", cycle)[0] for cycle in range(first, last)]
    slots = ["T0", "S", "T1", "S"]
    figure = Figure(
        70 + (last - first) * wide + 14,
        168,
        "A frame of four slots, in which T0 sleeps and soft threads take its slots",
    )
    for name, y in (("cycle", 20), ("slot", 46), ("thread", 80)):
        figure.text(8, y, name, "s")
    for index, thread in enumerate(turns):
        cycle, x = first + index, 66 + index * wide
        slot = slots[cycle % 4]
        if cycle % 4 == 0:
            figure.text(x + wide / 2, 20, str(cycle), "c s")
            figure.line((x, 26), (x, 112), "g")
        figure.text(x + wide / 2, 46, slot, "c s")
        donated = slot[0] == "T" and slot != thread
        figure.labelled(
            x, 60, (wide - 2, 30), YELLOW if donated else BLUE if slot != "S" else GREEN, thread
        )
    asleep = [66 + (cycle - first) * wide for cycle in (53, 68)]
    figure.line((asleep[0], 104), (asleep[1], 104), "r")
    figure.text(sum(asleep) / 2, 122, "T0 sleeps until 680 ns, which is cycle 68", "c s")
    figure.text(
        8,
        144,
        "Blue: a hard thread in its own slot. Green: a soft thread in a slot S. Yellow: a soft thread in a slot of T0, which sleeps.",
        "s",
    )
    figure.text(8, 160, "A frame is four cycles. T0 has one in four: 40 ns from turn to turn.", "s")
    return figure


def rights(setup: Setup, regions: Regions, thread: int, address: int) -> str:
    """The accesses that a confined thread may make at an address."""
    data = address >= DATA
    may = [] if data or not regions.may_fetch(thread, True, address) else ["fetch"]
    may += ["load"] if regions.may_load(thread, True, address, 4) else []
    may += ["store"] if data and regions.may_store(thread, address, 4) else []
    return ", ".join(may) or "nothing"


def memory() -> Figure:
    """The memory map of examples/c/pid.toml, with the accesses of the confined thread 0."""
    setup = read_setup((TOP / "examples/c/pid.toml").read_bytes())
    regions = Regions(setup.iregions, setup.dregions, setup.size)
    figure = Figure(720, 316, "The memory map, with the rights of confined thread 0")
    names = {8: "shared", 12: "read only", **{k: f"T{k}" for k in range(8)}}
    for column, (base, word, name) in enumerate(
        ((0, setup.iregions, "instruction scratchpad"), (DATA, setup.dregions, "data scratchpad"))
    ):
        x = 96 + column * 330
        figure.text(x, 20, name, "b")
        for k in range(8):
            y, address = 30 + k * 26, base + k * setup.size // 8
            may = rights(setup, regions, 0, address)
            owner = names[word >> 4 * k & 15]
            fill = GREY if may == "nothing" else GREEN if "store" in may or "fetch" in may else BLUE
            figure.text(x - 84, y + 17, f"{address:08x}", "m s")
            figure.box(x, y, 90, 24, fill)
            figure.text(x + 45, y + 16, owner, "c")
            figure.text(x + 98, y + 16, may, "s")
    figure.text(12, 270, "40000000", "m s")
    figure.labelled(96, 253, (90, 24), GREEN, "port")
    figure.text(194, 269, "load and store a word: each thread has its own port", "s")
    figure.text(
        12,
        302,
        "On the right: the rights of the confined thread 0 in examples/c/pid.toml. Grey regions are another thread's.",
        "s",
    )
    return figure


SECTION = [
    ("10", "begin:", "lw   x5, 0(x2)"),
    ("14", "", "bgeu x5, x7, rare"),
    ("18", "", "add  x6, x6, x5"),
    ("1c", "end:", "wu   x11, x10"),
    ("20", "", "j    begin"),
    ("24", "rare:", "div  x5, x5, x7"),
    ("28", "", "j    end"),
]
"""A program with a rare case after the end of its section: address, label, instruction."""


def section() -> Figure:
    """A section whose branch leaves it."""
    figure = Figure(
        720, 262, "A section whose branch leaves it: the visit, and the bound, end there"
    )
    figure.box(30, 26, 250, 78, BLUE)
    figure.text(30, 18, "section 0x10 to 0x1c", "b")
    for row, (address, label, code) in enumerate(SECTION):
        for x, words in ((40, address), (70, label), (122, " ".join(code.split()))):
            figure.text(x, 46 + row * 26, words, "m")
    figure.arrow([(282, 68), (330, 68), (330, 172), (284, 172)], "r")
    figure.text(340, 64, "The branch leaves the section.", "")
    figure.text(340, 82, "The visit ends with the issue of rare, at 0x24.", "")
    figure.text(340, 100, "The bound counts neither div nor j.", "")
    figure.arrow([(282, 198), (310, 198), (310, 122), (284, 122)])
    figure.text(340, 150, "bound: the number, status 0", "")
    figure.text(340, 168, "fp_budget: UNKNOWN, names the branch", "")
    figure.text(340, 186, "fp_layout: moves rare into the section", "")
    figure.text(
        30,
        246,
        "An execution through rare takes longer than the number. But its visit of the section is over at 0x24.",
        "s",
    )
    return figure


FLOW = [
    ("t0_motor.c", "gcc -O2 -S", "C with FP_LOOP"),
    ("t0_motor.s", "fp_layout", "assembly"),
    ("own.elf", "flexpret elf", "assembled and linked"),
    ("own.fpx", "flexpret run", "the image"),
    ("trace", "fp_visits", "what happened"),
]
"""From C to a trace: files, the tools that read them, and their contents."""


def flow() -> Figure:
    """From C to a bound."""
    figure = Figure(760, 250, "From C to a bound")
    for column, (name, tool, what) in enumerate(FLOW):
        x = 24 + column * 150
        figure.labelled(x, 60, (96, 36), BLUE, name)
        figure.text(x + 48, 50, what, "c s")
        if column < len(FLOW) - 1:
            figure.arrow([(x + 96, 78), (x + 150, 78)])
            figure.text(x + 123, 112, tool, "c s")
    figure.labelled(324, 170, (96, 36), GREEN, "bound")
    figure.arrow([(372, 96), (372, 170)])
    figure.text(382, 146, "fp_budget", "s")
    figure.labelled(110, 170, (130, 36), YELLOW, "setup: slots, regions")
    figure.arrow([(240, 188), (324, 188)])
    figure.labelled(624, 170, (96, 36), GREEN, "verdict")
    figure.arrow([(672, 96), (672, 170)])
    figure.arrow([(420, 188), (624, 188)])
    figure.text(522, 182, "no visit is longer?", "c s")
    figure.text(
        14,
        236,
        "fp_budget bounds the machine code of own.elf, with the claims of FP_LOOP. fp_visits compares a run with them.",
        "s",
    )
    figure.text(14, 20, "From C to a bound", "b")
    return figure


FIGURES = {"pipeline": pipeline, "frame": frame, "memory": memory, "section": section, "flow": flow}


def main() -> int:
    """Writes or compares the figures."""
    parser = argparse.ArgumentParser(description="Draws the figures of the documents as SVG.")
    parser.add_argument(
        "--check", action="store_true", help="write nothing; status 1 if a stored figure differs"
    )
    parser.add_argument(
        "folder", nargs="?", type=Path, default=TOP / "docs", metavar="FOLDER", help="default: docs"
    )
    options = parser.parse_args()
    differ = 0
    for name, draw in FIGURES.items():
        file: Path = options.folder / f"{name}.svg"
        text = draw().svg()
        if not options.check:
            file.write_text(text)
        elif not file.exists() or file.read_text() != text:
            differ += 1
            print(f"figures.py: {file} isn't what is drawn now", file=sys.stderr)
    return 1 if differ else 0


if __name__ == "__main__":
    sys.exit(main())
