"""Reads logs of the format `Kanata` 0004, which the viewer Konata shows, and reports each line that breaks a rule.

python3 -m dev.fuzz.kanata FILE..: status 1 if a rule is broken; `-` is standard input. The rules:
- The first line is the head. Each other one is a command with its fields, apart by tabs: C= (cycle), C (cycles that go by),
  I (id, number in the simulator, thread), L (id, type, text), S and E (id, lane, stage), R (id, number of the end, 1 where
  it is flushed), W (id of the consumer, id of the producer, type). Numbers are decimal; a type of L or W is 0 to 2.
- One C= comes first, and each C advances by at least one cycle.
- Ids count from 0 in the order of the lines I. No line is about an instruction before its I or after its R.
- A stage ends by E, by the next stage of its lane or by R, in a later cycle than it begins.
- As this core's turns go: the stages are F, D, E, M and W, a cycle each, and then the turn retires; it is flushed behind D.
  It has one label (type 0) and one detail (type 1) at its end.
The rules are the common description of the format. They weren't compared with the viewer or a specification.
"""

import sys
from dataclasses import dataclass, field
from pathlib import Path
from typing import Iterable

HEAD = "Kanata\t0004"
STAGES = ["F", "D", "E", "M", "W"]
# The fields after each command: n for a number, t for a text, s for the name of a stage.
FIELDS = {
    "C=": "n",
    "C": "n",
    "I": "nnn",
    "L": "nnt",
    "S": "nns",
    "E": "nns",
    "R": "nnn",
    "W": "nnn",
}
# The largest type of a label, of an end and of an arrow.
LAST_TYPE = {"L": 2, "R": 1, "W": 2}


class LogError(Exception):
    """The fault of a line."""


def must(holds: bool, why: str) -> None:
    if not holds:
        raise LogError(why)


@dataclass
class Instruction:
    """The state of an instruction in the log so far."""

    stages: list[str] = field(default_factory=list)
    begun: int = 0
    lanes: dict[int, str] = field(default_factory=dict)
    labels: set[int] = field(default_factory=set)
    is_done: bool = False

    def end_stage(self, lane: int, cycle: int) -> None:
        must(
            cycle > self.begun, f"stage {self.lanes.pop(lane)} ends in the cycle in which it begins"
        )


class Log:
    """A log, line by line."""

    def __init__(self) -> None:
        self.cycle: int | None = None
        self.instructions: list[Instruction] = []

    def read(self, line: str) -> None:
        command, *rest = line.split("\t")
        must(command in FIELDS, f"there is no command {command!r}")
        kinds = FIELDS[command]
        must(len(rest) == len(kinds), f"{command} has {len(kinds)} fields, and not {len(rest)}")
        for kind, text in zip(kinds, rest):
            must(kind != "n" or (text.isascii() and text.isdigit()), f"{text!r} is no number")
            must(text != "", "a field is empty")
        numbers = [int(text) for kind, text in zip(kinds, rest) if kind == "n"]
        if command in LAST_TYPE:
            must(numbers[-1] <= LAST_TYPE[command], f"{command} has no type {numbers[-1]}")
        if command in ("C=", "C"):
            self.clock(command, numbers[0])
            return
        must(self.cycle is not None, "no C= said which cycle it is")
        if command == "I":
            must(numbers[0] == len(self.instructions), f"the next id is {len(self.instructions)}")
            self.instructions.append(Instruction())
            return
        instruction = self.known(numbers[0])
        if command == "L":
            must(numbers[1] not in instruction.labels, f"a second label of type {numbers[1]}")
            instruction.labels.add(numbers[1])
        elif command == "S":
            self.begin(instruction, numbers[1], rest[2])
        elif command == "E":
            must(
                instruction.lanes.get(numbers[1]) == rest[2],
                f"lane {numbers[1]} isn't in {rest[2]}",
            )
            instruction.end_stage(numbers[1], self.now())
        elif command == "R":
            self.retire(instruction, is_flush=numbers[2] == 1)
        else:
            self.known(numbers[1])

    def now(self) -> int:
        return self.cycle or 0

    def clock(self, command: str, number: int) -> None:
        if command == "C=":
            must(self.cycle is None, "a second C=")
            self.cycle = number
        else:
            must(self.cycle is not None and number > 0, "C goes on by a cycle at least, behind C=")
            self.cycle = self.now() + number

    def known(self, identity: int) -> Instruction:
        must(identity < len(self.instructions), f"no I has the id {identity}")
        must(not self.instructions[identity].is_done, f"{identity} has ended")
        return self.instructions[identity]

    def begin(self, instruction: Instruction, lane: int, stage: str) -> None:
        must(stage not in instruction.stages, f"a second {stage}")
        must(
            [*instruction.stages, stage] == STAGES[: len(instruction.stages) + 1],
            f"{stage} comes behind {instruction.stages}",
        )
        must(
            not instruction.stages or self.now() == instruction.begun + 1,
            f"{stage} isn't in the next cycle",
        )
        if lane in instruction.lanes:
            instruction.end_stage(lane, self.now())
        instruction.stages.append(stage)
        instruction.lanes[lane] = stage
        instruction.begun = self.now()

    def retire(self, instruction: Instruction, is_flush: bool) -> None:
        must(instruction.labels >= {0, 1}, "it ends with no label or no detail")
        must(
            instruction.stages == (STAGES[:2] if is_flush else STAGES),
            f"it ends behind {instruction.stages}",
        )
        for lane in list(instruction.lanes):
            instruction.end_stage(lane, self.now())
        instruction.is_done = True


def first_fault(lines: Iterable[str]) -> str | None:
    """The number of the first line that has a fault, with the fault."""
    log = Log()
    number = 0
    for number, line in enumerate(lines, 1):
        try:
            must(line.endswith("\n"), "the line has no end")
            if number == 1:
                must(line == HEAD + "\n", f"the head isn't {HEAD!r}")
            else:
                log.read(line[:-1])
        except LogError as error:
            return f"{number}: {error}"
    return None if number else "1: the head is missing"


def main(names: list[str]) -> int:
    if not names:
        print(__doc__, file=sys.stderr)
        return 2
    failed = 0
    for name in names:
        text = sys.stdin.read() if name == "-" else Path(name).read_text()
        fault = first_fault(text.splitlines(keepends=True))
        if fault:
            print(f"{name}:{fault}")
            failed = 1
    return failed


if __name__ == "__main__":
    sys.exit(main(sys.argv[1:]))
