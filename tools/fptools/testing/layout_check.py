"""An independent check of sections and functions: their exits, and whether their loops can be stated.

It shares no code with the tools and the model. Its loops are natural loops (edges back to a dominator), which the tools
and the model don't use."""

from collections.abc import Collection, Mapping
from dataclasses import dataclass, field
from pathlib import Path

import networkx
from elftools.elf.elffile import ELFFile

RETURN = 0x0000_8067
MRET = 0x3020_0073
TRAPS = (0x0000_0073, 0x0010_0073)
STRAIGHT_OPCODES = (0x37, 0x17, 0x03, 0x23, 0x13, 0x33, 0x0F, 0x73, 0x0B)
CODE_END = 0x1_0000
DATA = 0x2000_0000
SIZE = 0x1_0000
MOST_AROUND = 3

Place = tuple[int, int]
"""Two addresses: of an edge, a loop, or a function."""


class Executable:
    """The words of code, the symbols and the functions of an ELF file."""

    def __init__(self, path: Path) -> None:
        self.path = path
        self.words: dict[int, int] = {}
        self.symbols: dict[str, int] = {}
        self.functions: dict[str, Place] = {}
        self.ends: dict[int, int] = {}  # of all functions, also of several with one name
        self.memory = {0: bytearray(SIZE), DATA: bytearray(SIZE)}
        with path.open("rb") as file:
            elf = ELFFile(file)
            for segment in elf.iter_segments():
                if segment["p_type"] == "PT_LOAD":
                    self._load(segment["p_vaddr"], segment.data())
            for symbol in elf.get_section_by_name(".symtab").iter_symbols():
                at = symbol["st_value"]
                self.symbols[symbol.name] = at
                if symbol["st_info"]["type"] == "STT_FUNC" and symbol["st_size"]:
                    self.functions[symbol.name] = at, at + symbol["st_size"]
                    self.ends[at] = at + symbol["st_size"]

    def _load(self, address: int, data: bytes) -> None:
        base = address & DATA
        self.memory[base][address - base : address - base + len(data)] = data
        if base == 0:
            for k in range(0, len(data) - 3, 4):
                self.words[address + k] = int.from_bytes(data[k : k + 4], "little")

    @property
    def flat(self) -> bytes:
        """Both scratchpads, as quick_run reads them."""
        return bytes(self.memory[0] + self.memory[DATA])


def flow(word: int, pc: int) -> tuple[str, list[int]]:
    """The kind of a word (next, branch, jump, call, return, indirect, wait or stop), and its successors."""
    opcode, rd, funct3 = word & 0x7F, word >> 7 & 31, word >> 12 & 7
    if opcode == 0x63 and funct3 not in (2, 3):
        offset = (word >> 8 & 15) << 1 | (word >> 25 & 63) << 5 | (word >> 7 & 1) << 11
        return "branch", [pc + 4, pc + offset - (word >> 31 << 12)]
    if opcode == 0x6F:
        offset = (word >> 21 & 1023) << 1 | (word >> 20 & 1) << 11 | (word >> 12 & 255) << 12
        return ("call" if rd else "jump"), [pc + offset - (word >> 31 << 20)]
    if word == RETURN:
        return "return", []
    if opcode == 0x67 or word == MRET:
        return "indirect", []
    if opcode == 0x0B and funct3 in (2, 3):
        return "wait", []
    if word in TRAPS or opcode not in STRAIGHT_OPCODES:
        return "stop", []
    return "next", [pc + 4]


@dataclass
class Seen:
    """What is reached from the first word of a section or function."""

    first: int
    end: int
    graph: networkx.DiGraph = field(default_factory=networkx.DiGraph)
    leaves: list[Place] = field(default_factory=list)  # neither inside nor at the end
    stops: list[tuple[int, str]] = field(default_factory=list)
    callees: set[int] = field(default_factory=set)
    loops: dict[int, set[int]] = field(
        default_factory=dict
    )  # the words of natural loops, by their heads
    backward: list[Place] = field(default_factory=list)  # by addresses, but back to no head
    reaches_end: bool = False
    is_reducible: bool = True

    def stated(self) -> tuple[list[Place], str]:
        """The loops as intervals for a setup, and why they can't be stated; empty where they can."""
        if not self.is_reducible:
            return [], "a loop is entered at two places"
        if self.backward:
            return [], "a step back that is no loop's: " + ", ".join(
                "%x to %x" % it for it in self.backward
            )
        lasts = {
            head: max(words & set(self.graph.predecessors(head)))
            for head, words in self.loops.items()
        }
        for head in sorted(lasts, reverse=True):
            lasts[head] = max(lasts[it] for it in lasts if it == head or head < it <= lasts[head])
        faults = [why for head, last in lasts.items() if (why := self._fault(head, last, lasts))]
        return sorted(lasts.items()), "; ".join(faults)

    def _fault(self, head: int, last: int, lasts: Mapping[int, int]) -> str:
        if min(self.loops[head]) < head:
            return "loop %x has words before its head" % head
        for one, other in self.graph.edges:
            if head < other <= last and not head <= one <= last:
                return "loop %x to %x is entered at %x from %x" % (head, last, other, one)
        for it, end in lasts.items():
            if head < it <= last < end:
                return "loops %x to %x and %x to %x cross" % (head, last, it, end)
        deep = sum(it < head and last <= end for it, end in lasts.items()) > MOST_AROUND
        return "loop %x lies too deep" % head if deep else ""


def look(
    words: Mapping[int, int], first: int, end: int, callable: Collection[int], is_function: bool
) -> Seen:
    """Goes through a section, or a function; calls of addresses that are callable come back."""
    seen = Seen(first, end)
    seen.graph.add_node(first)
    ahead, met = [first], {first}
    while ahead:
        pc = ahead.pop()
        for to in _steps(words.get(pc, 0), pc, callable, seen, is_function):
            if not first <= to < end:
                if to == end and not is_function:
                    seen.reaches_end = True
                else:
                    seen.leaves.append((pc, to))
                continue
            seen.graph.add_edge(pc, to)
            if to not in met:
                met.add(to)
                ahead.append(to)
    _find_loops(seen)
    return seen


def _steps(
    word: int, pc: int, callable: Collection[int], seen: Seen, is_function: bool
) -> list[int]:
    kind, to = flow(word, pc)
    if kind == "call" and word >> 7 & 31 == 1 and to[0] in callable:
        seen.callees.add(to[0])
        return [pc + 4]
    if kind == "return" and is_function:
        seen.reaches_end = True
    elif kind in ("indirect", "wait", "stop", "return"):
        seen.stops.append((pc, kind))
    return to


def _find_loops(seen: Seen) -> None:
    above = networkx.immediate_dominators(seen.graph, seen.first)

    def dominates(one: int, other: int) -> bool:
        while other not in (one, seen.first):
            other = above[other]
        return one == other

    rest = seen.graph.copy()
    for one, other in list(seen.graph.edges):
        if dominates(other, one):
            rest.remove_edge(one, other)
            words = seen.loops.setdefault(other, {other})
            ahead = [one]
            while ahead:
                it = ahead.pop()
                if it not in words:
                    words.add(it)
                    ahead += seen.graph.predecessors(it)
        elif other <= one:
            seen.backward.append((one, other))
    seen.is_reducible = networkx.is_directed_acyclic_graph(rest)
