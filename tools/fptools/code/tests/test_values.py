"""What is known of registers behind a word."""

import pytest

from fptools.code.values import Value, after, unknown
from fptools.isa.words import Word

PC = 0x40
T0, SP, T1 = 5, 2, 6


def register_word(funct3: int, rd: int, rs1: int, rs2: int, funct7: int = 0) -> Word:
    """The word of an operation between registers."""
    return Word(PC, funct7 << 25 | rs2 << 20 | rs1 << 15 | funct3 << 12 | rd << 7 | 0x33)


def immediate_word(funct3: int, rd: int, rs1: int, number: int) -> Word:
    """The word of an operation with an immediate."""
    return Word(PC, (number & 0xFFF) << 20 | rs1 << 15 | funct3 << 12 | rd << 7 | 0x13)


@pytest.mark.parametrize(
    "word",
    [
        register_word(0, T1, SP, 0),  # add t1, sp, zero
        register_word(0, T1, 0, SP),  # add t1, zero, sp
        register_word(0, T1, SP, 0, 0x20),  # sub t1, sp, zero
        register_word(4, T1, SP, 0),  # xor t1, sp, zero
        register_word(6, T1, SP, 0),  # or t1, sp, zero
        register_word(6, T1, 0, SP),  # or t1, zero, sp
        register_word(1, T1, SP, 0),  # sll t1, sp, zero
        register_word(5, T1, SP, 0, 0x20),  # sra t1, sp, zero
        immediate_word(6, T1, SP, 0),  # ori t1, sp, 0
        immediate_word(7, T1, SP, -1),  # andi t1, sp, -1
        immediate_word(1, T1, SP, 0),  # slli t1, sp, 0
    ],
)
def test_a_copy_of_sp_is_sp(word: Word) -> None:
    first = unknown(PC)
    assert after(word, first)[T1] == first[SP]


@pytest.mark.parametrize(
    "word",
    [
        register_word(0, T1, 0, SP, 0x20),  # sub t1, zero, sp
        register_word(1, T1, 0, SP),  # sll t1, zero, sp
        register_word(6, T1, SP, T0),  # or t1, sp, t0
        register_word(7, T1, SP, 0),  # and t1, sp, zero
        immediate_word(6, T1, SP, 1),  # ori t1, sp, 1
        immediate_word(4, T1, SP, -1),  # xori t1, sp, -1
        immediate_word(7, T1, SP, -16),  # andi t1, sp, -16
        immediate_word(2, T1, SP, 0),  # slti t1, sp, 0
    ],
)
def test_another_result_is_no_copy(word: Word) -> None:
    first = unknown(PC)
    assert after(word, first)[T1] not in first[1:]


def test_numbers_are_computed() -> None:
    state = (*unknown(PC)[:T0], Value(None, 12), *unknown(PC)[T0 + 1 :])
    assert after(immediate_word(6, T1, T0, 0), state)[T1] == Value(None, 12)
    assert after(immediate_word(7, T1, T0, 10), state)[T1] == Value(None, 8)
    assert after(register_word(1, T1, 0, T0), state)[T1] == Value(None, 0)
