"""The path that costs a bound: found without the program, and as long as what is proved."""
from __future__ import annotations

import json
import subprocess
from collections import Counter
from pathlib import Path
from random import Random

from hypothesis import HealthCheck, given, settings
from hypothesis import strategies as st

from fptools.testing.common import Tool
from fptools.files.elf import Function, Program
from fptools.files.image import read_image
from fptools.budget.path_facts import facts_of, path_text
from fptools.budget.paths import ELSEWHERE, Search, Step
from fptools.code.section import walk_all
from fptools.files.setup import LoopTable, read_setup
from fptools.files.sources import Sources
from fptools.testing.modelled import labels_of

FRAMES = (
    "T0 D D D D D D D",
    "T0 S S S D D D D",
    "T0 S T0 S S D D D",
    "T0 T0 S T0 T0 S S S",
    "S T0 T0 T0 S S T0 S",
)
PLAIN = (
    "addi a0, a0, 1",
    "lw a1, 0(s0)",
    "mul a2, a0, a1",
    "sw a2, 4(s0)",
    "csrr a3, mcause",
    "div a4, a0, a1",
)
MOST_DEPTH = 3
MOST_BACKS = 5


class Made:
    """A random program: a section from `begin` to `done` with loops, branches and calls of two
    functions."""

    def __init__(self, random: Random) -> None:
        self.random = random
        self.lines: list[str] = ["lui s0, 0x20000", "begin: nop"]
        self.loops: list[tuple[str, str, int]] = []
        self.labels = 0
        self._block(0, can_call=("f", "g"))
        self.lines += ["done: j done", "f: nop"]
        self._block(1, can_call=("g",))
        self.lines += ["end_f: ret", "g: nop"]
        self._block(2, can_call=())
        self.lines += ["end_g: ret"]

    @property
    def source(self) -> str:
        return "\n".join(self.lines) + "\n"

    def _block(self, depth: int, can_call: tuple[str, ...]) -> None:
        for _ in range(self.random.randint(1, 4)):
            kind = self.random.choice(("plain", "plain", "if", "else", "loop", "while", "call"))
            if kind == "call" and can_call:
                self.lines.append(f"jal ra, {self.random.choice(can_call)}")
            elif kind in ("if", "else"):
                self._branch(depth, can_call, kind == "else")
            elif kind in ("loop", "while") and depth < MOST_DEPTH:
                self._loop(depth, can_call, kind == "while")
            else:
                self.lines += self.random.choices(PLAIN, k=self.random.randint(1, 4))

    def _label(self) -> str:
        self.labels += 1
        return f"l{self.labels}"

    def _branch(self, depth: int, can_call: tuple[str, ...], has_else: bool) -> None:
        other, end = self._label(), self._label()
        self.lines.append(f"beq a0, a1, {other}")
        if depth < MOST_DEPTH:
            self._block(depth + 1, can_call)
        self.lines += [f"j {end}"] if has_else else []
        self.lines.append(f"{other}: addi a0, a0, 2")
        self.lines.append(f"{end}: addi a1, a1, 1")

    def _loop(self, depth: int, can_call: tuple[str, ...], tests_first: bool) -> None:
        head, last, out = self._label(), self._label(), self._label()
        self.lines.append(f"{head}: addi a2, a2, 1")
        if tests_first or self.random.random() < 0.3:
            self.lines.append(f"bnez a2, {out}")
        self._block(depth + 1, can_call)
        if self.random.random() < 0.3:
            self.lines.append(f"blt a0, a2, {head}")
        self.lines.append(f"{last}: j {head}" if tests_first else f"{last}: bnez a0, {head}")
        self.lines.append(f"{out}: addi a3, a3, 1")
        self.loops.append((head, last, self.random.randint(0, MOST_BACKS)))


def set_up(flexpret: str, folder: Path, made: Made, frame: str) -> Path:
    """The setup of a random program, whose image is beside it."""
    source, image, setup = folder / "own.s", folder / "own.fpx", folder / "own.toml"
    source.write_text(made.source)
    image.write_bytes(
        subprocess.run([flexpret, "asm", source], capture_output=True, check=True).stdout
    )
    at = labels_of(made.source)
    tables = "".join(
        f"[[loop]]\nhead = {at[head]}\nlast = {at[last]}\nbound = {bound}\n"
        for head, last, bound in made.loops
    )
    slots = ", ".join(f'"{it}"' for it in frame.split())
    regions = ", ".join(['"readonly"'] * 8)
    setup.write_text(
        f'period = 10\nimage = "{image}"\nslots = [{slots}]\ni_regions = [{regions}]\n'
        f'd_regions = [{regions}]\n[[thread]]\nid = 0\nmode = "hard"\nentry = 0\n{tables}'
    )
    return setup


def search_of(setup: Path, at: dict[str, int]) -> Search:
    read = read_setup(setup)
    words = read_image(read.image)
    functions = [Function(at[name], at[f"end_{name}"] + 4, name) for name in ("f", "g")]
    return Search(read, 0, words, walk_all(words, at["begin"], at["done"], functions))


# Each example writes all files again.
@settings(max_examples=60, suppress_health_check=list(HealthCheck))
@given(random=st.randoms(use_true_random=False), frame=st.sampled_from(FRAMES))
def test_a_random_program_has_a_path_of_its_bound(
    flexpret: str, tmp_path: Path, random: Random, frame: str
) -> None:
    made = Made(random)
    setup, at = set_up(flexpret, tmp_path, made, frame), labels_of(made.source)
    listed = tmp_path / "routines"
    listed.write_text("".join(f"{at[it]:08x} {at['end_' + it]:08x}\n" for it in ("f", "g")))
    words = [flexpret, "calls", str(setup), "--thread", "0", "--routines", str(listed)]
    words += ["--from", hex(at["begin"]), "--to", hex(at["done"])]
    told = subprocess.run(words, capture_output=True, text=True, check=False).stdout.strip()
    search = search_of(setup, at)
    assert told == f"bound {search.longest.cycles}"
    look_at_steps(search)


def look_at_steps(search: Search) -> None:
    """The steps are of one path: as many lead to a word as from it, but at its ends; loops keep
    their tables."""
    steps = search.longest.steps()
    assert sum(step.cycles * number for step, number in steps.items()) == search.longest.cycles
    came, went = Counter[int](), Counter[int]()
    for step, number in steps.items():
        went[step.pc] += number if step.is_issue else 0
        came[step.to] += number
    calls = sum(number for step, number in steps.items() if step.to in search.routines)
    came_back = sum(number for step, number in steps.items() if not step.is_issue)
    assert came.pop(ELSEWHERE, 0) == came_back <= calls
    came[search.first] += 1
    came[search.codes[search.first].section.end] = 0  # the path may leave
    assert sum(abs(came[pc] - went[pc]) for pc in {*came, *went}) <= 1
    for loop in search.loops:
        look_at_loop(search, loop, steps)


def look_at_loop(search: Search, loop: LoopTable, steps: Counter[Step]) -> None:
    """A loop goes back as often as its table says, at most, each time that the path enters it."""
    backs = sum(
        n for it, n in steps.items() if it.to == loop.head and loop.head <= it.pc <= loop.last
    )
    all_of = sum(n for it, n in steps.items() if it.to == loop.head) + (loop.head == search.first)
    assert backs <= (loop.bound or 0) * (all_of - backs)


def test_a_path_that_costs_otherwise_is_not_shown(flexpret: str, tmp_path: Path) -> None:
    made = Made(Random(1))
    search = search_of(set_up(flexpret, tmp_path, made, FRAMES[0]), labels_of(made.source))
    facts = facts_of(search, search.longest.cycles + 1, Program(None), Sources(None))
    (line,) = path_text(facts)
    assert "path: this tool's search finds" in line and not facts.lines


def test_the_path_of_a_shipped_example(asking: Tool) -> None:
    words = ("fp_budget", "examples/c/pid.elf", "--setup", "examples/c/pid.toml", "--thread", "0")
    section = ("--from-label", "step_begin", "--to-label", "step_end", "--path")
    assumed = ("--assume", "no traps", "--assume", "moved work")
    ran = asking(*words, *section, *assumed)
    lines = [line.strip() for line in ran.stdout.splitlines()]
    assert "path 352 cycles: main0 352" in lines
    assert lines[-1] == "path loop 0xf0 step_begin+0x3c: goes back 7 times in 1 entry"
    (result,) = json.loads(asking(*words, *section, *assumed, "--json").stdout)["results"]
    path = result["path"]
    assert path["cycles"] == result["bound"] == sum(it["cycles"] for it in path["lines"])
    assert path["loops"] == [{"at": "0xf0 step_begin+0x3c", "head": 0xF0, "entries": 1, "backs": 7}]
    assert (
        json.loads(asking(*words, *section[:-1], *assumed, "--json").stdout)["results"][0]["path"]
        is None
    )


def test_the_path_of_a_period(asking: Tool) -> None:
    words = ("fp_budget", "examples/c/pid.elf", "--setup", "examples/c/pid.toml", "--thread", "0")
    assumed = ("--assume", "no traps", "--assume", "loop tables")
    ran = asking(*words, "--period", *assumed, "--path", "--json")
    (result,) = json.loads(ran.stdout)["results"]
    path = result["path"]
    assert path["cycles"] == result["bound"] == sum(it["cycles"] for it in path["lines"])
    assert [(it["head"], it["backs"]) for it in path["loops"]] == [(0xF0, 7)]
    assert "step_end" in {it["place"].split()[-1] for it in path["lines"]}
