"""The bounds of all loops of an executable, each function by itself."""

from collections.abc import Iterator
from dataclasses import dataclass
from pathlib import Path

from fptools.files.elf import Program
from fptools.flow.inference import Inference, StatedLoop
from fptools.code.section import walk_all


@dataclass(frozen=True)
class LoopBound:
    """A loop of a function, with what bounds it."""

    function: str
    stated: StatedLoop

    @property
    def head(self) -> int:
        return self.stated.loop.head

    @property
    def words(self) -> frozenset[int]:
        """Those of a loop that is entered at its head."""
        loop = self.stated.loop
        return frozenset(loop.body) if loop.is_natural else frozenset()

    @property
    def bounds(self) -> list[int]:
        """How often it goes back at most: by the marks, by the code, and by both."""
        it = self.stated
        known = (it.by_marks, it.by_code.backs if it.by_code else None, it.bound)
        return [number for number in known if number is not None]

    @property
    def bound(self) -> int | None:
        """The least of these: the strongest statement."""
        return min(self.bounds, default=None)


def bounds_of(elf: Path) -> Iterator[LoopBound]:
    program = Program(elf)
    inference = Inference(program)
    for function in program.functions:
        parts = walk_all(program.words, function.start, function.end, program.functions, True)
        for part, stated in inference.state(parts):
            if part is parts[0]:
                yield LoopBound(function.name, stated)
