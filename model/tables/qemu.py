"""results.txt, compared with qemu-riscv32: its results of the same instructions, each at its address."""

import struct
import tempfile
from collections.abc import Iterator, Sequence
from dataclasses import dataclass
from pathlib import Path

from model.instructions import JALR, LUI, i_word, j_word, u_word
from model.bits import u32
from model.tables.forms import Row, numbers, rows
from model.tables.tools import call, linked

ARCH = "rv32im"
FIELD, FIELD_END = 0x400000, 0x800000
"""The addresses of the instructions; every other word jumps to a stub that records that it was reached."""

MEMORY, SPARE = 0x20000000, 0x20001000
"""The words that are loaded and stored, and one for instructions that do neither."""

TEXT, REACHED = 0x10000, 0x20000
"""The address of the harness, and of its part that writes the results."""

REACH = 1 << 19
"""A jump to a stub, which leads to there, goes no further than this."""

LINK, SCRATCH = 31, 30
"""Registers of the jumps to stubs, and of the stubs."""

HARNESS = """
.section .text
.globl _start
_start: la s0, rows
        la s1, rows_end
        la s2, told
next:   bgeu s0, s1, end
        lw t3, 0(s0)
        lw t0, 4(s0)
        lw t1, 8(s0)
        lw s3, 12(s0)
        lw s4, 16(s0)
        sw s4, 0(s3)
        li t2, 0
        jr t3
end:    li a0, 1
        la a1, told
        sub a2, s2, a1
        li a7, 64
        ecall
        li a0, 0
        li a7, 93
        ecall
.section .reached,"ax"
        addi t6, t6, -4
        lw s5, 0(s3)
        sw t2, 0(s2)
        sw t6, 4(s2)
        sw s5, 8(s2)
        addi s0, s0, 20
        addi s2, s2, 12
        j next
.section .rows,"a"
rows:   .incbin "rows"
rows_end:
.section .told,"aw",@nobits
told:   .space TOLD
.section .memory,"aw",@nobits
        .space 0x2000
.section .field,"ax"
        .incbin "field"
"""
"""Puts a row's operands into x5, x6 and the memory, jumps to its instruction, and writes x7, the address where it
continued, and the memory."""

SCRIPT = f"""SECTIONS {{
 .text {TEXT:#x} : {{ *(.text) }}
 .reached {REACHED:#x} : {{ *(.reached) }}
 .rows : {{ *(.rows) }}
 .told : {{ *(.told) }}
 .field {FIELD:#x} : {{ *(.field) }}
 .memory {MEMORY:#x} : {{ *(.memory) }}
}}
"""


@dataclass(frozen=True)
class Result:
    """A call of results.txt with its answer."""

    text: str
    word: int
    pc: int
    a: int
    b: int
    content: int
    answer: tuple[int, ...]

    @property
    def address(self) -> int:
        return self.answer[2] or SPARE

    def packed(self) -> bytes:
        return struct.pack("<5I", self.pc, self.a, self.b, self.address, self.content)


def results() -> list[Result]:
    found = []
    for answer, text in rows("results.txt"):
        word, pc, a, b, content = numbers(text.removeprefix("run "))
        found.append(
            Result(text, word, pc, a, b, content, tuple(int(each, 16) for each in answer.split()))
        )
    return found


def stub_addresses(found: Sequence[Result]) -> list[int]:
    """Addresses of two words each, some REACH apart, that are no row's."""
    used = {address for row in found for address in (row.pc, row.answer[1])}
    addresses = []
    for start in range(FIELD, FIELD_END, REACH):
        address = start + REACH // 2
        while {address, address + 4} & used:
            address += 4
        addresses.append(address)
    return addresses


def field(found: Sequence[Result]) -> bytes:
    """The instructions, with jumps to stubs around them."""
    addresses = stub_addresses(found)
    words = {row.pc: row.word for row in found}
    for address in addresses:
        words[address], words[address + 4] = u_word(LUI, SCRATCH, REACHED >> 12), i_word(
            JALR, 0, 0, SCRATCH, 0
        )
    data = bytearray()
    for address in range(FIELD, FIELD_END, 4):
        jump = j_word(LINK, addresses[(address - FIELD) // REACH] - address)
        data += words.get(address, jump).to_bytes(4, "little")
    return bytes(data)


def ran(found: Sequence[Result]) -> bytes:
    """The results of rows that the harness writes: three words each."""
    with tempfile.TemporaryDirectory() as name:
        folder = Path(name)
        (folder / "rows").write_bytes(b"".join(row.packed() for row in found))
        (folder / "field").write_bytes(field(found))
        linked(folder, HARNESS.replace("TOLD", str(12 * len(found))), ARCH, SCRIPT)
        return call(folder, "qemu-riscv32", "a.elf")


def result_rows() -> Iterator[Row]:
    """The answers of results.txt with the results of qemu-riscv32. The address isn't recorded: it is the row's. The
    memory there is."""
    found = results()
    told = ran(found)
    for k, row in enumerate(found):
        value, next_pc, content = (u32(told, 12 * k + 4 * j) for j in range(3))
        left = (value, next_pc, row.answer[2], content)
        yield row.text, "" if left == row.answer else f"qemu leaves {left} for {row.answer}"
