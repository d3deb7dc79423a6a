"""The flow of words against the rows of the decoder, which the gate compares with the proved definition."""
from __future__ import annotations

import re

import pytest
from hypothesis import given
from hypothesis import strategies as st
from fptools.testing.common import TOP
from fptools.isa.disassembly import timing_text
from fptools.isa.encodings import BY_NAME, FORMS, decode, get, target
from fptools.isa.words import Flow, Word

from model import instructions as model

ROW = re.compile(r"([0-9a-f]{8}) (\w+)(.*?)\t.*")
PC = 0x8000
FLOWS = {
    "Branch": Flow.BRANCH,
    "Jalr": Flow.INDIRECT,
    "Mret": Flow.INDIRECT,
    "Ecall": Flow.TRAP,
    "Ebreak": Flow.TRAP,
    "Illegal": Flow.TRAP,
}


def rows() -> list[tuple[Word, str, str]]:
    found = map(ROW.match, (TOP / "crates/test_units/data/decode.txt").read_text().splitlines())
    return [(Word(PC, int(it[1], 16)), it[2], it[3]) for it in found if it]


def test_each_word_of_the_decoders_rows_goes_on_where_its_instruction_does() -> None:
    seen = set()
    for word, name, fields in rows():
        seen.add(name)
        expected = FLOWS.get(name, Flow.NEXT)
        if name == "Jal":
            expected = Flow.JUMP if "rd: 0," in fields else Flow.CALL
        assert word.flow is expected, f"{word.bits:08x} {name}"
        assert word.is_code == (name != "Illegal"), f"{word.bits:08x} {name}"
        offset = re.search(r"off: (-?\d+)", fields)
        if name in ("Branch", "Jal"):
            assert offset and word.target == (PC + int(offset[1])) % 2**32, f"{word.bits:08x}"
    assert {"Branch", "Jal", "Illegal", "Csr"} <= seen


@pytest.mark.parametrize(
    ("bits", "flow", "text"),
    [
        (0x0000050B, Flow.NEXT, "gt a0"),
        (0x0000158B, Flow.NEXT, "gth a1"),
        (0x00A5A00B, Flow.WAIT, "du a1, a0"),
        (0x00A5B00B, Flow.WAIT, "wu a1, a0"),
        (0x00A5C00B, Flow.NEXT, "ee a1, a0"),
        (0x0000500B, Flow.NEXT, "de"),
        (0x00A5B08B, Flow.TRAP, None),  # WU with a result
        (0x0000600B, Flow.TRAP, None),
    ],
)
def test_timing_instructions(bits: int, flow: Flow, text: str | None) -> None:
    assert Word(PC, bits).flow is flow
    assert timing_text(Word(PC, bits)) == text


OPCODES = sorted({form.bits & 0x7F for form in FORMS})
NAMES = {
    "Rw": "csrrw",
    "Rs": "csrrs",
    "Rc": "csrrc",
    "Rwi": "csrrwi",
    "Rsi": "csrrsi",
    "Rci": "csrrci",
}


@given(
    st.integers(0, 2**25 - 1),
    st.sampled_from(OPCODES) | st.integers(0, 127),
    st.sampled_from([0, 1, 32, None]),
)
def test_words_are_the_instructions_of_the_model(
    upper: int, opcode: int, funct7: int | None
) -> None:
    """By another decoder: name and operands, and the word that the operands make again."""
    bits = upper << 7 | opcode
    if funct7 is not None:
        bits = bits & 0x01FF_FFFF | funct7 << 25
    form, wanted = decode(bits), model.decode(bits)
    assert (form is None) == (wanted.kind == "Illegal")
    if form is None or wanted.kind == "Fence":
        return
    assert form.name == NAMES.get(wanted.op, (wanted.op or wanted.kind).lower())
    values = {letter: get(letter, bits) for letter in form.operands}
    assert form.word(*values.values()) == bits
    numbers = {values[letter] for letter in "iohubj" if letter in values}
    assert numbers <= {wanted.imm} and values.get("d", wanted.rd) == wanted.rd
    assert (
        values.get("s", values.get("z", wanted.rs1)) == wanted.rs1
        and values.get("c", wanted.csr) == wanted.csr
    )
    if wanted.kind in ("Jal", "Branch"):
        assert target(PC, bits) == (PC + wanted.imm) % 2**32


def test_each_instruction_has_a_name_of_its_own() -> None:
    assert len(BY_NAME) == len(FORMS) == 62
