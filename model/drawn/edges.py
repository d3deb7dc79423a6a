"""Drawn worlds whose calculations have operands at the edges of their range, such as the smallest number, -1 and 0."""

from model.bits import word
from model.drawn.code import arithmetic, branch, li, muldiv, shift
from model.drawn.worlds import World
from model.instructions import BRANCHES, PRODUCTS, SHIFTS, Ins

EDGES = [word(value) for value in (
    0, 1, 2, 3, 7, -1, -2, -7, 1 << 31, (1 << 31) + 1, (1 << 31) - 1, (1 << 31) - 2, 1 << 16, 1 << 15, -(1 << 15),
)]  # fmt: skip
"""Numbers at which signs, carries and halves of words change."""

SET = 0.7
"""How often a calculation is preceded by new values of its operands."""

FEWEST_CYCLES = 300
WEIGHTS: dict[str, float] = {
    "op": 25,
    "mul": 50,
    "branch": 8,
    "load": 5,
    "store": 5,
    "port": 4,
    "jal": 1,
    "time": 1,
}
"""The kinds of pieces of code, with their frequencies."""


class EdgeWorld(World):
    """A world of a seed that mostly calculates. Before most calculations the code sets the two source registers, mostly
    to edges."""

    def __init__(self, seed: int) -> None:
        super().__init__(seed)
        self.cycles = max(self.cycles, FEWEST_CYCLES)

    def _weights(self) -> dict[str, float]:
        return WEIGHTS

    def _operand(self) -> int:
        chance = self.chance
        if chance.random() < 0.6:
            return chance.choice(EDGES)
        value = chance.getrandbits(chance.choice([8, 16, 32, 32]))
        return word(-value) if chance.random() < 0.3 else value

    def _operands(self) -> tuple[list[Ins], int, int]:
        """Code that sets two registers, and these registers."""
        first, second = self.chance.sample([k for k in range(1, 8)], 2)
        if self.chance.random() >= SET:
            return [], first, second
        return li(first, self._operand()) + li(second, self._operand()), first, second

    def _mul(self) -> list[Ins]:
        code, first, second = self._operands()
        return code + [
            muldiv(self.chance.choice(list(PRODUCTS.values())), self._register(), first, second)
        ]

    def _op(self) -> list[Ins]:
        chance = self.chance
        if chance.random() < 0.5:
            return super()._op()
        code, first, second = self._operands()
        if chance.random() < 0.3:
            return code + [
                shift(
                    chance.choice(list(SHIFTS.values())),
                    self._register(),
                    first,
                    chance.randrange(32),
                )
            ]
        op = chance.choice(["Add", "Sub", "Sll", "Slt", "Sltu", "Xor", "Srl", "Sra", "Or", "And"])
        return code + [arithmetic(op, self._register(), first, second)]

    def _branch(self) -> list[Ins]:
        if self.chance.random() < 0.5:
            return super()._branch()
        code, first, second = self._operands()
        return code + [branch(self.chance.choice(list(BRANCHES.values())), first, second, 8)]
