"""Sections of code with loops, in a frame of slots."""

import random

from model.drawn.code import addi, arithmetic, branch, csr, jal, load, muldiv
from model.graphs import Graph, Part
from model.instructions import BRANCHES, Ins, encode
from model.registers import MSCRATCH
from model.setups import Loop

FRAMES = [
    0xFFFFFFF0, 0xFFFF3210, 0xFFFEE0E0, 0x00000000, 0x00000001, 0xFFFFFF0E, 0xEEEEEE0E, 0xFFFF0010, 0xFF0FE03F,
]  # fmt: skip
"""Slots registers in which thread 0 has one slot, several, or all."""

ENDS = [Ins("Ecall"), Ins("Jalr", rs1=1), Ins("Du"), Ins("Wu"), Ins("Illegal"), jal(0, 0)]
"""Words at which a path ends or is unknown."""


class Section:
    """A section, its loops, which may be badly nested, and the thread of the bound."""

    def __init__(self, chance: random.Random, most_rounds: int) -> None:
        self.chance = chance
        self.slots, self.thread = chance.choice(FRAMES), 0
        self.first = 4 * chance.choice([0, 0, 8, 10, 16, 18, 20, 24, 29, 35, 38])
        self.count = chance.randrange(3, 15)
        self.code = [self._word() for _ in range(self.count)]
        self.loops: list[Loop] = []
        for _ in range(chance.choice([0, 1, 1, 2, 2, 3, 5])):
            self._add_loop(most_rounds)

    @property
    def part(self) -> Part:
        return Part(self.first, self.first + 4 * self.count)

    def words(self) -> list[int]:
        return [encode(x) for x in self.code]

    def graph(self) -> Graph:
        words = dict(zip(range(self.part.first, self.part.end, 4), self.words()))
        return Graph(lambda address: words.get(address, 0), self.part, [], self.loops)

    def _word(self) -> Ins:
        """A word, mostly one with a successor."""
        chance = self.chance
        if chance.random() < 0.04:
            return chance.choice(ENDS)
        if chance.random() < 0.3:
            return branch(
                chance.choice(list(BRANCHES.values())), 5, 0, 4 * chance.choice([1, 2, 2, 3, 4, 6])
            )
        plain = [
            addi(0, 0, 0),
            addi(5, 0, 1),
            load("Lw", 6, 0, 0),
            csr("Rw", 0, MSCRATCH, 1),
            muldiv("Mul", 3, 4, 2),
        ]
        return chance.choice(
            [*plain, arithmetic("Add", 1, 2, 3), jal(0, 4), jal(0, 8), Ins("Gt", rd=10)]
        )

    def _add_loop(self, most_rounds: int) -> None:
        """A loop of words that no other loop's end is in, or any."""
        chance = self.chance
        head = chance.randrange(self.count)
        last = min(self.count - 1, head + chance.choice([0, 1, 2, 4, 8]))
        self.code[last] = branch(chance.choice(list(BRANCHES.values())), 5, 0, 4 * (head - last))
        start, end = self.first + 4 * head, self.first + 4 * last
        self.loops.append(Loop(start, end, chance.randint(0, most_rounds)))


class Calling:
    """A section that calls routines, which may call one another, with loops in each; one after another in memory."""

    def __init__(self, chance: random.Random, most_rounds: int) -> None:
        self.chance = chance
        self.counts = [chance.randrange(3, 12) for _ in range(chance.choice([1, 2, 3, 4, 5]))]
        self.caller = chance.randrange(len(self.counts))
        self.firsts = [4 * sum(self.counts[:k]) for k in range(len(self.counts))]
        self.code = [x for k in range(len(self.counts)) for x in self._part(k)]
        self.loops = [loop for k in range(len(self.counts)) for loop in self._loops(k, most_rounds)]

    @property
    def section(self) -> Part:
        """The function that calls; the others are routines."""
        return self._range(self.caller)

    @property
    def routines(self) -> list[Part]:
        return [self._range(k) for k in range(len(self.counts)) if k != self.caller]

    def _range(self, k: int) -> Part:
        return Part(self.firsts[k], self.firsts[k] + 4 * self.counts[k], k != self.caller)

    def _part(self, k: int) -> list[Ins]:
        words = [
            self._word(k, self.firsts[k] + 4 * j, self.counts[k] - j) for j in range(self.counts[k])
        ]
        if k != self.caller and self.chance.random() < 0.95:
            words[-1] = Ins("Jalr", rs1=1)
        return words

    def _word(self, k: int, address: int, left: int) -> Ins:
        """A word of a function at an address, with the number of words to the function's end."""
        chance = self.chance
        if chance.random() < 0.3:
            return jal(1, self.firsts[self._callee(k)] - address)
        if chance.random() < 0.05 and k != self.caller:
            return Ins("Jalr", rs1=1)
        if chance.random() < 0.2 and left > 2:
            return branch("Bne", 5, 0, 4 * chance.randrange(2, min(left, 5)))
        return chance.choice(
            [addi(0, 0, 0), addi(5, 5, 1), load("Lw", 6, 0, 0), muldiv("Mul", 3, 4, 2)]
        )

    def _callee(self, k: int) -> int:
        """A routine that a function calls: mostly a later one in the order of calls, so that none calls itself."""
        order = [self.caller] + [j for j in range(len(self.counts)) if j != self.caller]
        later = order[order.index(k) + 1 :]
        return self.chance.choice(later if later and self.chance.random() < 0.98 else order)

    def _loops(self, k: int, most_rounds: int) -> list[Loop]:
        """At most one loop of a function, which ends before the function's last word."""
        chance = self.chance
        if self.counts[k] < 4 or chance.random() < 0.4:
            return []
        head = chance.randrange(self.counts[k] - 2)
        last = chance.randrange(head, self.counts[k] - 1)
        at = self.firsts[k] // 4
        self.code[at + last] = branch("Bne", 5, 0, 4 * (head - last))
        return [Loop(4 * (at + head), 4 * (at + last), chance.randint(0, most_rounds))]
