"""Lays out each shape of tools/fptools/testing/layout at all levels, as sections and through `calls`, and compares.

For each level and way it prints how many shapes the analyser takes in the compiler's order and laid out, how many are left
by a path, how many do the same in quick_run.c and in qemu-riscv32, whether any of 4,000 executions takes longer than its
bound, and the sums of the longest executions and of the code. It needs gcc for RISC-V, qemu-riscv32, and a C compiler;
with --clang also clang. Status 1: not all are accepted, or one does another thing.

    python3 -m dev.measure.layout_levels                    # about eight minutes of a processor
    python3 -m dev.measure.layout_levels --rotate 4 -O2     # only these levels"""

import argparse
import sys
import tempfile
from dataclasses import dataclass, field, replace
from pathlib import Path


from fptools.testing.layout_check import Executable
from fptools.testing.layout_shapes import (
    BATCHES,
    LEVELS,
    SHAPES,
    Shape,
    Way,
    build,
    counted_hashes,
    quick_runner,
    shapes,
)


@dataclass
class Tally:
    """The counts of the shapes in one order of their blocks."""

    accepted: int = 0
    left: int = 0
    cycles: dict[str, int] = field(default_factory=dict)
    """Of the longest execution of each, where each fourth cycle is the thread's."""
    words: int = 0
    digests: dict[str, str] = field(default_factory=dict)
    small: list[str] = field(default_factory=list)
    """Those with an execution that is longer than the bound."""
    tightness: list[float] = field(default_factory=list)
    said: list[str] = field(default_factory=list)

    def take(self, name: str, shape: Shape, runner: Path, image: Path) -> None:
        """Counts a shape."""
        ran = shape.ran(runner, image)
        self.cycles[name], self.digests[name] = ran.at_fourth, ran.digest
        self.words += sum(len(seen.graph) for seen in shape.parts.values())
        leaves = any(seen.leaves or not seen.reaches_end for seen in shape.parts.values())
        refused = "; ".join(shape.faults) or shape.refusal()
        self.left += leaves
        if refused:
            self.said.append(f"{name}: {refused}")
            return
        self.accepted += 1
        fourth, each = shape.bounds(ran)
        self.tightness.append(fourth / ran.at_fourth)
        if fourth < ran.at_fourth or each < ran.at_each:
            self.small.append(name)


def tally(folder: Path, way: Way) -> Tally:
    """All shapes, compiled in a way."""
    found, runner = Tally(), quick_runner(folder)
    for number, names in enumerate(BATCHES):
        executable = build(folder / f"{way.is_laid}{number}", way, names)
        image = executable.with_suffix(".image")
        image.write_bytes(Executable(executable).flat)
        for name, shape in shapes(executable, names).items():
            found.take(name, shape, runner, image)
    return found


def compare(way: Way) -> bool:
    """Prints the line of a way, and its faults. Returns whether there are none."""
    with tempfile.TemporaryDirectory() as text:
        folder = Path(text)
        compiled, laid = tally(folder, replace(way, is_laid=False, rotate=0)), tally(folder, way)
        hashes = (
            []
            if way.is_clang
            else [
                counted_hashes(
                    build(folder / f"counted{kind}", replace(way, is_laid=kind), is_counted=True)
                )
                for kind in (False, True)
            ]
        )
    same = [
        name
        for name in SHAPES
        if len({it[name] for it in (compiled.digests, laid.digests, *hashes)}) == 1
    ]
    before, after = sum(compiled.cycles.values()), sum(laid.cycles.values())
    worst = max(SHAPES, key=lambda name: laid.cycles[name] / compiled.cycles[name])
    ratio = laid.cycles[worst] / compiled.cycles[worst]
    print(
        f"{way}: accepted {laid.accepted} of {len(SHAPES)} (as compiled {compiled.accepted}), left by a path {laid.left} ({compiled.left}), "
        f"the same {len(same)}, bound too small {len(laid.small)}; cycles {after} ({before}, {100 * (after / before - 1):+.2f} %), "
        f"most {worst} {100 * (ratio - 1):+.1f} %; words {laid.words} ({compiled.words}); bound over longest: "
        f"median {sorted(laid.tightness)[len(laid.tightness) // 2]:.2f}, most {max(laid.tightness):.2f}",
        flush=True,
    )
    wrong = [*laid.said, *(f"{name}: does another thing" for name in SHAPES if name not in same)]
    for line in [
        *wrong,
        *(f"{name}: an execution takes longer than the bound" for name in laid.small),
    ]:
        print(f"    {line}", flush=True)
    return not wrong and not laid.small


def main() -> int:
    parser = argparse.ArgumentParser(
        description=__doc__, formatter_class=argparse.RawDescriptionHelpFormatter
    )
    parser.add_argument("--rotate", type=int, default=0, metavar="N", help="as of fp_layout")
    parser.add_argument(
        "--clang", action="store_true", help="clang's assembly, for which qemu-riscv32 isn't asked"
    )
    asked, levels = parser.parse_known_args()
    if not set(levels) <= set(LEVELS):
        parser.error(f'levels are {", ".join(LEVELS)}')
    ways = [
        Way(level, is_section, rotate=asked.rotate, is_clang=asked.clang)
        for level in levels or LEVELS
        for is_section in (True, False)
    ]
    return 0 if all([compare(way) for way in ways]) else 1


if __name__ == "__main__":
    sys.exit(main())
