#!/usr/bin/env python3
"""make.py FOLDER [MOST]: writes the setups of the sweep and the list of its jobs to a new folder, with all that a job needs.

There is a setup for every frame of eight slots in which T0 has one at least, and for every period from 1 to MOST
nanoseconds (40 if it is left out). A line of jobs.tsv has, with tabs between: the job's name, the slots (T for T0, S
for the soft threads), the period, and the budget in cycles: what the 2,000 nanoseconds of the loop in sum.s are.
FLEXPRET names the program, if it isn't the built one of this repository."""
import argparse
import os
import shutil
import subprocess
import sys
from itertools import product
from pathlib import Path

HERE = Path(__file__).resolve().parent
BUILT = HERE.parents[1] / "crates/flexpret_cli/out/flexpret_cli"
LOOP_NS = 2000
MOST_PERIOD = 40
SETUP = """\
period = {period}
image = "sum.fpx"
slots = [{slots}]
i_regions = ["readonly", "readonly", "readonly", "readonly", "readonly", "readonly", "readonly", "readonly"]
d_regions = ["T0", "shared", "readonly", "readonly", "readonly", "readonly", "readonly", "readonly"]

[[thread]]
id = 0
mode = "hard"
entry = 0
confined = true
inputs = [[0, 3]]

[[loop]]
head = 0x24
last = 0x34
bound = 7
"""


def is_elf(program: Path) -> bool:
    """Whether a file runs by itself, as the script ./flexpret doesn't once it is copied."""
    with program.open("rb") as file:
        return file.read(4) == b"\x7fELF"


def make(folder: Path, most: int) -> None:
    program = Path(os.environ.get("FLEXPRET") or BUILT)
    if not os.access(program, os.X_OK):
        raise FileNotFoundError(
            f"{program} is no program: build it by ./flexpret, or name it by FLEXPRET"
        )
    if not is_elf(program):
        raise OSError(
            f"{program} is no ELF executable: name the program itself, no script that calls it"
        )
    (folder / "setups").mkdir(parents=True)
    (folder / "results").mkdir()
    shutil.copy(program, folder / "flexpret")
    for file in (*HERE.glob("*.sh"), HERE / "slack.gp", HERE.parent / "sum.fpx"):
        shutil.copy(file, folder)
    words = [str(program), "asm", str(HERE / "period.s")]
    (folder / "period.fpx").write_bytes(
        subprocess.run(words, stdout=subprocess.PIPE, check=True).stdout
    )
    frames = ["".join(frame) for frame in product("ST", repeat=8) if "T" in frame]
    with (folder / "jobs.tsv").open("w", encoding="ascii") as jobs:
        for period, frame in product(range(1, most + 1), frames):
            name = f"{period:02}-{frame}"
            slots = ", ".join('"T0"' if slot == "T" else '"S"' for slot in frame)
            text = SETUP.format(period=period, slots=slots)
            (folder / "setups" / f"{name}.toml").write_text(text, encoding="ascii")
            print(name, frame, period, LOOP_NS // period, sep="\t", file=jobs)


if __name__ == "__main__":
    parser = argparse.ArgumentParser(
        description=__doc__, formatter_class=argparse.RawDescriptionHelpFormatter
    )
    parser.add_argument("folder", type=Path)
    parser.add_argument(
        "most", type=int, nargs="?", default=MOST_PERIOD, choices=range(1, 1001), metavar="MOST"
    )
    asked = parser.parse_args()
    try:
        make(asked.folder, asked.most)
    except (OSError, subprocess.CalledProcessError) as fault:
        sys.exit(f"make.py: {fault}")
