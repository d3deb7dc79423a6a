"""Draws the crates by layers into docs/dev/ARCHITECTURE.md, from crates.txt.

usage: python3 -m dev.crates.layers [--check] [--top FOLDER]

A layer of crates.txt is a comment `# NAME: TEXT` and the crates up to the next blank line. The
drawing has a line for each crate, with the crates that it uses; those that it also reaches through
another one are left out. With --check nothing is written. Status: 0 all is right; 1 the drawing is
another one, or a rule is broken; 2 a file can't be read. The rules: a crate uses only crates above
it in the file, its files name each library of its line, it has a row in the page's table, and no
chain of crates is longer than LONGEST.
"""

import argparse
import re
import sys
from collections.abc import Iterator
from dataclasses import dataclass, field
from pathlib import Path

import networkx

from dev.program import TOP

LIST = "crates.txt"
PAGE = "docs/dev/ARCHITECTURE.md"
LONGEST = 10
"""The most crates of a chain in which each uses the next: the gate proves one after the other."""

DRAWING = re.compile(r"(?<=<!-- made by dev/crates/layers.py -->\n```\n).*?(?=^```$)", re.M | re.S)
"""The drawing in the page."""


@dataclass
class Crates:
    """The content of crates.txt."""

    layers: dict[str, list[str]] = field(default_factory=dict)
    """The crates of each layer, lowest first."""
    uses: dict[str, list[str]] = field(default_factory=dict)
    """The libraries of each crate's line, those of the kit among them."""

    def graph(self) -> networkx.DiGraph:
        """The crates, each with edges to those of the repository that it uses."""
        graph = networkx.DiGraph()
        graph.add_nodes_from(self.uses)
        for name, libraries in self.uses.items():
            graph.add_edges_from((name, low) for low in libraries if low in self.uses)
        return graph


def read(text: str) -> Crates:
    """The layers and crates of the text of crates.txt; the layer '' has crates that have none."""
    crates = Crates()
    for block in re.split(r"\n\s*\n", text):
        layer = block.partition("\n")[0].partition(":")[0]
        for line in block.splitlines():
            name, colon, libraries = line.partition("#")[0].partition(":")
            if colon:
                heading = layer.removeprefix("# ") if layer.startswith("# ") else ""
                crates.layers.setdefault(heading, []).append(name.split()[0])
                crates.uses[name.split()[0]] = libraries.split()
    return crates


def drawing(crates: Crates) -> str:
    """A line for each crate: its layer at the layer's first, its name, the crates below it."""
    direct = networkx.transitive_reduction(crates.graph())
    wide, long = max(map(len, crates.layers)), max(map(len, crates.uses))
    lines = []
    for layer, names in crates.layers.items():
        for name in names:
            below = [low for low in crates.uses if direct.has_edge(name, low)]
            arrow = f" ← {', '.join(below)}" if below else ""
            head = layer if name == names[0] else ""
            lines.append(f"{head:{wide}}  {name:{long}}{arrow}".rstrip())
    return "\n".join([*lines, ""])


def names_it(folder: Path, library: str) -> bool:
    """Whether a crate's sources, definitions or proofs name a library."""
    named = re.compile(rf"(?<![\w.]){library}::|\bRattle\.{library}\b|\buse {library}\b")
    files = (file for part in ("src", "specs", "proofs") for file in (folder / part).rglob("*"))
    return any(named.search(file.read_text()) for file in files if file.suffix in (".rt", ".antt"))


def faults(top: Path, crates: Crates, page: str) -> Iterator[str]:
    """The violations of the rules."""
    table = set(re.findall(r"`(\w+)`", "\n".join(re.findall(r"^\| (`[^|]*)\|", page, re.M))))
    above: set[str] = set()
    yield from (f"{name} is in no layer" for name in crates.layers.get("", []))
    for name in (name for names in crates.layers.values() for name in names):
        for library in crates.uses[name]:
            if library in crates.uses and library not in above:
                yield f"{name} uses {library}, which isn't above it"
            if not names_it(top / "crates" / name, library):
                yield f"no file of {name} names {library}"
        if name not in table:
            yield f"{name} has no row in {PAGE}"
        above.add(name)
    if networkx.is_directed_acyclic_graph(crates.graph()):
        chain = networkx.dag_longest_path(crates.graph())[::-1]
        if len(chain) > LONGEST:
            yield f"a chain has {len(chain)} crates, and {LONGEST} are the most: {', '.join(chain)}"


def main(arguments: list[str]) -> int:
    """Writes the drawing, or compares it and checks the rules."""
    parser = argparse.ArgumentParser(description="Draws the crates by layers, from crates.txt.")
    parser.add_argument("--check", action="store_true", help="write nothing, only compare")
    parser.add_argument("--top", type=Path, default=TOP, metavar="FOLDER", help="the repository")
    options = parser.parse_args(arguments)
    page = options.top / PAGE
    try:
        crates, text = read((options.top / LIST).read_text()), page.read_text()
    except OSError as error:
        print(f"layers.py: {error.filename}: {error.strerror}", file=sys.stderr)
        return 2
    found = list(faults(options.top, crates, text))
    if not DRAWING.search(text):
        found.append(f"{PAGE} has no place for the drawing")
    elif not found and not options.check:
        page.write_text(DRAWING.sub(lambda _: drawing(crates), text))
    elif not found and DRAWING.findall(text) != [drawing(crates)]:
        found.append(f"{PAGE} has another drawing: dev/crates/layers.py writes it again")
    for fault in found:
        print(f"layers.py: {fault}", file=sys.stderr)
    if found:
        return 1
    chain = len(networkx.dag_longest_path(crates.graph()))
    sizes = f"{len(crates.uses)} crates, {len(crates.layers)} layers"
    print(f"{sizes}, {chain} in the longest chain")
    return 0


if __name__ == "__main__":
    sys.exit(main(sys.argv[1:]))
