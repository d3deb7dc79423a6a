"""The records of loop marks: what is read of them, and which claims don't count."""
from __future__ import annotations

import struct
from pathlib import Path

import pytest
from fptools.files.elf import Function, Line, Program
from fptools.flow.records import Claim, Kind, Mark, Marks, RecordError, read_records

NOP, RET = 0x13, 0x8067


def record(
    at: int, kind: int = 0, most: int = 8, order: int = 0, unit: int = 5, unit_name: str = ""
) -> bytes:
    header = struct.pack("<7I", at, kind, 3, 17, most, unit, order)
    return header + f"tap\0own.c\0{unit_name}\0".encode()


class Own(Program):
    """An executable with some words, functions and sections."""

    def __init__(
        self, data: bytes, units: bytes = b"", functions: tuple[Function, ...] = ()
    ) -> None:
        super().__init__()
        self.path = Path("own.elf")
        self.data, self.units = data, units
        self.words = dict.fromkeys(range(0, 64, 4), NOP)
        self.functions = list(functions or [Function(0, 64, "f")])
        self.has_local_symbols = True

    def section_data(self, name: str) -> bytes:
        own = {".fp_flow": self.data, ".fp_flow_units": self.units, ".fp_flow_aliases": b"g\0f\0"}
        return own[name]

    def is_shared(self, address: int) -> bool:
        return False

    def line_of(self, address: int) -> Line | None:
        return None


def test_a_record() -> None:
    (mark,) = read_records(record(8, 0x101, order=4))
    claim = Claim("own.c", 17, "tap", 8, 3, 5)
    assert mark == Mark(8, Kind.ROUND, claim, only_fall=True, order=4)
    assert str(claim) == "own.c:17 tap"


@pytest.mark.parametrize(
    "data",
    [
        record(8)[:-1],
        record(8) + b"\1",
        record(9),
        record(8, kind=2),
        record(8, kind=0x201),
        record(8, kind=2**32 - 4),
        record(8).replace(b"tap", b""),
        record(8).replace(b"tap", b"\xff\xff\xff"),
    ],
    ids=["end", "more", "address", "kind", "edges", "below 0", "name", "text"],
)
def test_a_damaged_section_makes_all_claims_unknown(data: bytes) -> None:
    with pytest.raises(RecordError):
        read_records(data)
    marks = Marks.of(Own(record(8) + data))
    assert marks.fault.startswith(".fp_flow of own.elf is damaged: the record at byte 0x")
    assert marks.fault.endswith("; build it again, from its sources on")
    assert marks.all == []


def test_a_mark_where_no_code_is() -> None:
    fault = Marks.of(Own(record(0x1000))).fault
    assert "a mark of own.c:17 tap is at 0x1000, where no code is" in fault


@pytest.mark.parametrize(
    ("most", "why"),
    [
        (0, "n is 0, and a loop that is entered makes a round: n is 1 or more"),
        (1_048_577, "n is 1048577, of 1048576 at most"),
        (1, ""),
        (1_048_576, ""),
    ],
)
def test_numbers_that_no_loop_has(most: int, why: str) -> None:
    marks = Marks.of(Own(record(8, most=most)))
    assert [*marks.unused.values()] == ([why] if why else [])


def test_claims_whose_marks_may_be_of_other_code() -> None:
    two = (Function(0, 64, "same"), Function(0, 64, "same"))
    (why,) = Marks.of(Own(record(8), functions=two)).unused.values()
    assert why == "same shares its code with another function: link without --icf"
    other = (Function(0, 64, "f"), Function(0, 64, "h"))
    (why,) = Marks.of(Own(record(8), functions=other)).unused.values()
    assert why.startswith("f and h share their code: write a function in place of an alias, or ")
    alias = (Function(0, 64, "f"), Function(0, 64, "g"))
    assert not Marks.of(Own(record(8), functions=alias)).unused
    (why,) = Marks.of(Own(record(8), functions=(Function(16, 64, "f"),))).unused.values()
    assert why == "a mark of it at 0x8 is in no function with a size: strip removes its symbol"
    (why,) = Marks.of(Own(record(8, kind=1))).unused.values()
    assert why == "its FP_LOOP has no record in the executable"


def test_units_of_one_name() -> None:
    assert not Marks.of(Own(record(8, unit_name="1:own.c"), b"1:own.c\0")).unused
    (why,) = Marks.of(Own(record(8, unit_name="1:own.c"), b"1:own.c\0" * 2)).unused.values()
    assert why.startswith("2 units are named 1:own.c")


def test_which_edges_pass_a_mark() -> None:
    """All that lead there, or that from the word before; each may, where that one has changed."""
    program = Own(record(16, order=1) + record(16, 0x101))
    marks = Marks.of(program)
    (loop,) = (it for it in marks.all if it.kind is Kind.LOOP)
    (only,) = (it for it in marks.all if it.only_fall)
    assert [(it.mark, it.is_sure) for it in marks.passes(12, 16)] == [(only, True), (loop, True)]
    assert [(it.mark, it.is_sure) for it in marks.passes(40, 16)] == [(loop, True)]
    program.words[12] = RET
    marks = Marks.of(program)
    for pc in (12, 40):
        assert [(it.mark, it.is_sure) for it in marks.passes(pc, 16)] == [
            (only, False),
            (loop, True),
        ]
    assert not marks.passes(12, 20)


def test_the_loop_marks_of_called_functions() -> None:
    program = Own(record(8))
    program.words[32] = RET
    marks = Marks.of(program)
    assert marks.entered_by(0) == frozenset([marks.all[0].claim])
    assert marks.entered_by(12) == frozenset()
    program.words[32] = RET | 5 << 15  # a jump by another register
    assert Marks.of(program).entered_by(12) is None
