"""The warnings about a bound: edges that leave the section other than by its end, and a bound of 0."""

from pathlib import Path
from typing import Iterator, Mapping

from fptools.code.digraph import search
from fptools.files.image import ImageError, read_image
from fptools.isa.encodings import EBREAK, ECALL, edges, is_call
from fptools.launch.arguments import address, parse
from fptools.launch.setups import image_of


def reached(words: Mapping[int, int], start: int, end: int) -> list[int]:
    """The addresses of a section that are reachable from its first."""
    found = search([start], lambda pc: edges(pc, words.get(pc, 0)) if start <= pc < end else ())
    return sorted(pc for pc in found if start <= pc < end)


def ways_out(words: Mapping[int, int], start: int, end: int) -> Iterator[str]:
    """A line for each reachable word that leaves the section other than by its end. Words that have no bound aren't among them."""
    for pc in reached(words, start, end):
        word = words.get(pc, 0)
        if word in (ECALL, EBREAK):
            yield f"{pc:08x}: a trap leaves the section, and the bound ends there"
        elif not edges(pc, word):
            yield f"{pc:08x}: no instruction is there, and the bound ends there"
        for to in edges(pc, word):
            if start <= to <= end:
                continue
            if is_call(word):
                yield f"{pc:08x}: a call of {to:08x} leaves the section, and the bound ends there; calls and tools/fp_budget follow it"
            else:
                yield f"{pc:08x}: the section is left for {to:08x}, and the bound ends there; tools/fp_budget checks that"


def warnings(command: list[str], line: str) -> list[str]:
    """The warnings about a bound, whose line the program wrote."""
    name, asked = parse(command)
    image = image_of(Path(asked.subjects[0]))
    start, end = address(asked.value("from")), address(asked.value("to"))
    if image is None or start is None or end is None or not Path(image).is_file():
        return []
    try:
        words = read_image(image)
    except ImageError:
        return []
    lines = list(ways_out(words, start, end))
    if line == "bound 0":
        lines.append(
            f"the bound is 0: no path from {start:08x} leaves the section after a cycle; tools/fp_budget says why"
        )
    return lines
