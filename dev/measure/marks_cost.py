"""Measures what loop marks cost: the bounds of the shapes in tools/fptools/testing/layout, without and with marks.

Both have the loop counts of a run, so the marks change only the compiled code. For each compiler and level it prints
the sums of the bounds, the geometric and the arithmetic mean of the ratios, the shapes with a larger bound, and the
`nop`s that stay. With --more OPTION the compiler gets an option. Status 1: the geometric mean at -O2 with gcc is above
1.03.

    python3 -m dev.measure.marks_cost            # about four minutes of a processor
    python3 -m dev.measure.marks_cost O2"""

import argparse
import math
import sys
import tempfile
from dataclasses import dataclass, field, replace
from pathlib import Path


from fptools.testing.layout_check import Executable
from fptools.testing.layout_shapes import BATCHES, Way, build, quick_runner, shapes

LEVELS = ("O0", "Og", "O1", "O2", "O3", "Os")
MOST_RATIO = 1.03
VISITS = 1000
NOP = 0x13


@dataclass
class Cost:
    """The bounds of the shapes at a level, in cycles, without and with marks."""

    way: Way
    bounds: dict[str, list[int]] = field(default_factory=dict)
    nops: int = 0

    @property
    def ratios(self) -> dict[str, float]:
        """Of the shapes that are bounded both ways."""
        return {name: it[1] / it[0] for name, it in self.bounds.items() if len(it) == 2}

    @property
    def mean(self) -> float:
        """The geometric mean of the ratios."""
        return math.exp(sum(map(math.log, self.ratios.values())) / len(self.ratios))

    @property
    def arithmetic(self) -> float:
        """The arithmetic mean of the ratios."""
        return sum(self.ratios.values()) / len(self.ratios)

    def row(self) -> str:
        sums = [sum(self.bounds[name][k] for name in self.ratios) for k in (0, 1)]
        more = sorted(name for name, it in self.ratios.items() if it > 1)
        worst = max(self.ratios, key=lambda name: self.ratios[name])
        what = f"worst {worst} {self.ratios[worst]:.2f}"
        compiler = "clang" if self.way.is_clang else "gcc"
        return (
            f"| {compiler} {self.way.level} | {len(self.ratios)} | {sums[0]} | {sums[1]} "
            f"| {self.mean:.3f} | {self.arithmetic:.3f} | {len(more)} | {what} | {self.nops} |"
        )


def cost_of(folder: Path, way: Way) -> Cost:
    """Builds, runs and bounds all shapes both ways."""
    cost, runner = Cost(way), quick_runner(folder)
    for is_marked in (False, True):
        for number, names in enumerate(BATCHES):
            own = replace(way, is_marked=is_marked)
            executable = build(folder / f"{number}{is_marked}", own, names)
            image = executable.with_suffix(".image")
            image.write_bytes(Executable(executable).flat)
            for name, shape in shapes(executable, names).items():
                if shape.faults or shape.refusal():
                    continue
                bound, _ = shape.bounds(shape.ran(runner, image, VISITS))
                cost.bounds.setdefault(name, []).append(bound)
                if is_marked:
                    words = shape.executable.words
                    cost.nops += sum(
                        words.get(pc) == NOP for it in shape.parts.values() for pc in it.graph
                    )
    return cost


def main() -> int:
    parser = argparse.ArgumentParser(
        description=__doc__, formatter_class=argparse.RawDescriptionHelpFormatter
    )
    parser.add_argument("levels", nargs="*", default=LEVELS, metavar="LEVEL")
    parser.add_argument("--clang", action="store_true", help="also with clang")
    parser.add_argument(
        "--more", action="append", default=[], metavar="OPTION", help="of the compiler"
    )
    asked, status = parser.parse_args(), 0
    print("| | shapes | without | with | geometric | arithmetic | larger | | `nop`s |")
    print("|---|---|---|---|---|---|---|---|---|")
    for is_clang in (False, True) if asked.clang else (False,):
        for level in asked.levels:
            if is_clang and level == "Og":
                continue
            with tempfile.TemporaryDirectory() as folder:
                way = Way(f"-{level}", False, is_clang=is_clang, more=tuple(asked.more))
                cost = cost_of(Path(folder), way)
            print(cost.row(), flush=True)
            if level == "O2" and not is_clang and cost.mean > MOST_RATIO:
                print(f"{cost.mean:.3f} is above {MOST_RATIO}", file=sys.stderr)
                status = 1
    return status


if __name__ == "__main__":
    sys.exit(main())
