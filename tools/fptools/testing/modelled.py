"""Runs of the executable model of this repository, for tests of tools that look at traces."""

import subprocess
import sys
from dataclasses import dataclass
from pathlib import Path

from fptools.testing.common import TOOLS, TOP


from model import assembler, ports, setups, world
from model.images import Image

READ_ONLY = '["readonly", "readonly", "readonly", "readonly", "readonly", "readonly", "readonly", "readonly"]'
HOLDS = TOOLS / "fptools/testing/holds"
OWN_DATA = '["T0", "T1", "T2", "T3", "T4", "T5", "T6", "shared"]'


@dataclass(frozen=True)
class Issue:
    """An issue of a thread: also one of a DU that spins, which has no line in a trace."""

    cycle: int
    pc: int
    word: int
    line: bytes | None

    @property
    def cause(self) -> int | None:
        """The cause of its trap."""
        effect = self.line[29:] if self.line else b""
        return int(effect.split()[1]) if effect.startswith(b"trap ") else None


def setup_text(
    image: str, slots: str = "T0 S S S D D D D", more: str = "", inputs: str = "[[0, 1]]"
) -> str:
    """A setup of one hard thread, T0, which is confined."""
    frame = ", ".join(f'"{slot}"' for slot in slots.split())
    return (
        f'period = 10\nimage = "{image}"\nslots = [{frame}]\ni_regions = {READ_ONLY}\nd_regions = {OWN_DATA}\n'
        f'[[thread]]\nid = 0\nmode = "hard"\nentry = 0\nconfined = true\ninputs = {inputs}\n{more}'
    )


def loop_table(head: int, last: int, bound: int) -> str:
    return f"[[loop]]\nhead = {head}\nlast = {last}\nbound = {bound}\n"


def assembled(source: str) -> Image:
    return assembler.assemble(source.encode())


def labels_of(source: str) -> dict[str, int]:
    placer = assembler.Placer()
    for number, line in enumerate(assembler.lines_of(source.encode()), 1):
        placer.take(number, line)
    return placer.labels


def issues_of(setup: str, image: Image, cycles: int, thread: int = 0) -> list[Issue]:
    """The issues of a thread that have retired after some cycles, in order."""
    machine = world.World(
        setups.read_setup(setup.encode()), image, [ports.HeldPort() for _ in range(setups.THREADS)]
    )
    machine.run_to(cycles)
    found = []
    for cycle, turn in enumerate(machine.turns[: max(cycles - world.RETIRES, 0)]):
        if turn.kind is world.Kind.ISSUE and turn.thread == thread:
            found.append(
                Issue(cycle, turn.pc, turn.word, turn.event.line() if turn.event else None)
            )
    return found


def trace_of(issues: list[Issue]) -> bytes:
    return b"".join(it.line for it in issues if it.line)


@dataclass(frozen=True)
class Made:
    """A program in a folder, with its setup."""

    folder: Path
    labels: dict[str, int]
    image: Image
    setup: Path
    trace: Path


def make(
    folder: Path,
    source: str,
    cycles: int,
    slots: str = "T0 S S S D D D D",
    more: str = "",
    inputs: str = "[[0, 1]]",
) -> Made:
    """Writes source, image, setup and trace of a program."""
    image, text = assembled(source), setup_text(str(folder / "it.fpx"), slots, more, inputs)
    (folder / "it.s").write_text(source)
    (folder / "it.fpx").write_bytes(image.written())
    (folder / "it.toml").write_text(text)
    (folder / "it.trace").write_bytes(trace_of(issues_of(text, image, cycles)))
    return Made(folder, labels_of(source), image, folder / "it.toml", folder / "it.trace")


def program(folder: Path) -> Path:
    """The model as a program that is called like the built one."""
    script = folder / "flexpret"
    script.write_text(f'#!/bin/sh\nPYTHONPATH="{TOP}" exec "{sys.executable}" -m model "$@"\n')
    script.chmod(0o755)
    return script


def held(name: str, folder: Path, most: int = 1000) -> tuple[Path, Path]:
    """A setup of an executable of data/holds, in which T0 has each fourth cycle, and a budget."""
    owners = ["T0", "T1", "T2", "T3", "T4", "T5", "T6"]
    flexpret, image = program(folder), folder / "own.fpx"
    made = subprocess.run([flexpret, "elf", HOLDS / f"{name}.elf"], capture_output=True, check=True)
    image.write_bytes(made.stdout)
    setup, budgets = folder / "own.toml", folder / "budgets.toml"
    setup.write_text(
        f"period = 10\nimage = {str(image)!r}\nslots = {['T0', 'S', 'S', 'S'] + ['D'] * 4}\n"
        f"i_regions = {[*owners, 'readonly']}\nd_regions = {[*owners, 'shared']}\n"
        f"[[thread]]\nid = 0\nmode = 'hard'\nentry = 0\nconfined = true\ninputs = [[0, 15]]\n"
    )
    section = f'[[budget]]\nname = "it"\nthread = 0\nfrom = "work_begin"\nto = "work_end"\ncycles = {most}\n'
    budgets.write_text(f"{section}calls = true\n")
    return setup, budgets
