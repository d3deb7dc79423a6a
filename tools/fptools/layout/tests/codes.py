"""Functions in assembly, and how tests of fp_layout lay them out."""
from __future__ import annotations

import random

from fptools.layout.assembly import Assembly
from fptools.layout.layout import Laid, Options, lay_out

HEAD = '\t.file\t"code.c"\n\t.option nopic\n\t.attribute arch, "rv32i2p1_m2p0_zicsr2p0"\n\t.text\n'

LOOP_AT_END = """\
\tj\t.L2
.L3:
\tlw\ta4,0(a1)
\tadd\ta5,a5,a4
\taddi\ta1,a1,4
.L2:
\tbne\ta1,a2,.L3
\tmv\ta0,a5
\tret
"""


def function(code: str, name: str = "f") -> str:
    return f"\t.align\t2\n\t.globl\t{name}\n\t.type\t{name}, @function\n{name}:\n{code}\t.size\t{name}, .-{name}\n"


def mark(name: str, line: int = 7) -> str:
    return f'#APP\n# {line} "code.c" 1\n\t.globl {name}\n{name}:\n# 0 "" 2\n#NO_APP\n'


def laid(code: str, options: Options = Options()) -> Laid:
    """A function laid out, and laid out again, which changes nothing."""
    once = lay_out(Assembly(HEAD + function(code)), options)
    assert lay_out(Assembly(once.text), options).text == once.text
    return once


def code_of(text: str) -> list[str]:
    """The labels and instructions of a text."""
    found = [" ".join(line.split()) for line in text.splitlines()]
    return [line for line in found if line and (line[0] not in "#." or line.startswith(".L"))]


def body(code: str, options: Options = Options()) -> list[str]:
    made = laid(code, options)
    assert not made.kept
    return code_of(made.text)[1:]


def big_function(count: int, seed: int) -> tuple[str, int]:
    """A function of about so many blocks, loops and choices in one another, which stand in an order by chance; and the
    number of its blocks."""
    chance = random.Random(seed)
    blocks: list[str] = []

    def place(text: str) -> int:
        blocks.append(text)
        return len(blocks) - 1

    def sequence(depth: int, size: int, onward: int) -> int:
        while size > 0:
            kind = chance.random()
            if kind < 0.3 and size > 6 and depth < 4:
                inside = min(size - 2, chance.randint(3, 40))
                head = place("")
                end = place(f"\taddi\ta0,a0,1\n\tj\t.L{head}\n")
                first = sequence(depth + 1, inside, end)
                blocks[head] = f"\taddi\ta1,a1,1\n\tbeq\ta1,a2,.L{onward}\n\tj\t.L{first}\n"
                onward, size = head, size - inside - 2
            elif kind < 0.7 and size > 4:
                inside = min((size - 1) // 2, chance.randint(1, 8))
                one, other = sequence(depth, inside, onward), sequence(depth, inside, onward)
                onward = place(f"\txor\ta3,a3,a1\n\tbne\ta3,a4,.L{one}\n\tj\t.L{other}\n")
                size -= 2 * inside + 1
            else:
                onward = place(f"\tadd\ta5,a5,a4\n\tj\t.L{onward}\n")
                size -= 1
        return onward

    first = sequence(0, count, place("\tmv\ta0,a5\n\tret\n"))
    order = list(range(len(blocks)))
    chance.shuffle(order)
    code = f"\tj\t.L{first}\n" + "".join(f".L{k}:\n{blocks[k]}" for k in order)
    return function(code), len(blocks)
