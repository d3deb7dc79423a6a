"""Large input that the measurements make: sections with loops and calls, sources, an executable."""
import struct
from collections.abc import Sequence
from dataclasses import dataclass

from model.instructions import b_word, j_word

NOP, COUNT, RETURN = 0x13, 0xFFF28293, 0x8067
"""`addi x0, x0, 0`, `addi x5, x5, -1`, `jalr x0, 0(x1)`."""

MOST = 1_048_576
"""The largest bound of a loop."""

READ_ONLY = ", ".join(['"readonly"'] * 8)
SETUP = f"""version = 2
period = 10
image = "a.fpx"
slots = [{', '.join(['"T0"'] * 8)}]
i_regions = [{READ_ONLY}]
d_regions = [{READ_ONLY}]
[[thread]]
id = 0
mode = "hard"
entry = 0
"""
"""A thread that has all eight slots."""

Loop = tuple[int, int]
"""The addresses of a loop's head and of its last word."""


@dataclass(frozen=True)
class Section:
    """Code at 0 with its loops, and the size of its section in bytes."""

    words: Sequence[int]
    loops: Sequence[Loop]
    to: int
    routines: Sequence[Loop] = ()

    def setup(self) -> str:
        return SETUP + "".join(
            f"[[loop]]\nhead = {head}\nlast = {last}\nbound = {MOST}\n" for head, last in self.loops
        )

    def image(self) -> bytes:
        return struct.pack(
            f"<4sIII{len(self.words)}I", b"FPX1", 1, 0, 4 * len(self.words), *self.words
        )

    def listing(self) -> str:
        return "".join(f"{first:08x} {last:08x}\n" for first, last in self.routines)


def branch(offset: int) -> int:
    """`bne x5, x0, OFFSET`."""
    return b_word(1, 5, 0, offset)


def call(offset: int) -> int:
    """`jal x1, OFFSET`."""
    return j_word(1, offset)


def short_loops() -> Section:
    """200 loops of two words, one after the other."""
    return Section([COUNT, branch(-4)] * 200, [(8 * k, 8 * k + 4) for k in range(200)], 1600)


def largest() -> Section:
    """The largest section: 16,384 words with 256 loops, in 64 nests of four, and branches forward in each."""
    words, loops = [], []
    for base in range(0, 65_536, 1024):
        nest = [NOP] * 256
        for k in range(20, 230, 8):
            nest[k] = branch(20)
        for depth in range(4):
            head, last = base + 16 * depth, base + 1020 - 16 * depth
            loops.append((head, last))
            nest[(last - base) // 4] = branch(head - last)
        words += nest
    return Section(words, loops, 65_536)


def routine() -> list[int]:
    """20 words: four loops, one in the other, and a return."""
    body = [COUNT] * 19 + [RETURN]
    for depth in range(4):
        first, last = 4 * depth, 68 - 4 * depth
        body[last // 4] = branch(first - last)
    return body


def many_calls() -> Section:
    """15,000 words with 10,000 calls of the 64 functions after them."""
    size = 60_000
    heads = [size + 80 * k for k in range(64)]
    code = [call(heads[k % 64] - 4 * k) if k % 3 else COUNT for k in range(size // 4)]
    loops = [(head + 4 * depth, head + 68 - 4 * depth) for head in heads for depth in range(4)]
    return Section(code + routine() * 64, loops, size, [(head, head + 76) for head in heads])


def executable() -> bytes:
    """An ELF file whose 65,535 program headers load a byte each, one after the other."""
    count = 65_535
    ident = b"\x7fELF" + bytes([1, 1, 1]) + bytes(9)
    header = struct.pack("<16sHHIIIIIHHHHHH", ident, 2, 243, 1, 0, 52, 0, 0, 52, 32, count, 0, 0, 0)
    loads = b"".join(struct.pack("<8I", 1, 0, k, k, 1, 1, 5, 1) for k in range(count))
    return header + loads


def labels() -> str:
    """A source of 100,000 labels."""
    return "".join(f"a{k}:\n" for k in range(100_000))
