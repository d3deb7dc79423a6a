"""Packets of gdb's remote protocol: framing, sums, escapes, acknowledgements and Ctrl-C."""
from __future__ import annotations

import os
from typing import Iterator

import pytest
from fptools.gdb.packets import (
    MOST_BYTES,
    Connection,
    Gone,
    Interrupted,
    escaped,
    framed,
    unescaped,
)
from fptools.gdb.registers import CPU, OWN, PC, REGISTERS, spelled, target_description
from xml.etree import ElementTree


class Pipes:
    """A connection, and gdb's ends of its pipes."""

    def __init__(self) -> None:
        source, self.sink = os.pipe()
        self.source, sink = os.pipe()
        self.connection = Connection(source, sink)
        self.ends = [source, self.sink, self.source, sink]

    def give(self, data: bytes) -> None:
        os.write(self.sink, data)

    def written(self) -> bytes:
        return os.read(self.source, 1 << 16)


@pytest.fixture
def pipes() -> Iterator[Pipes]:
    made = Pipes()
    yield made
    for end in made.ends:
        try:
            os.close(end)
        except OSError:
            pass


def test_a_packet_has_the_sum_of_its_bytes() -> None:
    assert framed(b"OK") == b"$OK#9a"
    assert framed(b"") == b"$#00"


@pytest.mark.parametrize("data", [b"", b"plain", b"#$}*", bytes(range(256)), b"}" * 5])
def test_escapes_come_back(data: bytes) -> None:
    assert unescaped(escaped(data)) == data
    assert not {*b"#$*"} & {*escaped(data)}


def test_data_with_escapes_is_read(pipes: Pipes) -> None:
    pipes.give(b"+" + framed(b"a#b}c"))
    assert pipes.connection.receive() == b"a#b}c"
    assert pipes.written() == b"+"


def test_a_packet_may_come_in_pieces(pipes: Pipes) -> None:
    pipes.connection.acknowledges = False
    pipes.give(b"$g")
    with pytest.raises(BlockingIOError):
        os.set_blocking(pipes.ends[0], False)
        pipes.connection.receive()
    pipes.give(b"#67$m0,4#fd")
    assert (pipes.connection.receive(), pipes.connection.receive()) == (b"g", b"m0,4")


@pytest.mark.parametrize("broken", [b"$g#00", b"$g#zz", b"$g#6 "])
def test_a_broken_packet_is_asked_for_again(pipes: Pipes, broken: bytes) -> None:
    pipes.give(broken + framed(b"g"))
    assert pipes.connection.receive() == b"g"
    assert pipes.written() == b"-+"


def test_an_answer_is_repeated_if_gdb_asks(pipes: Pipes) -> None:
    pipes.connection.send(b"OK")
    pipes.give(b"-" + framed(b"?"))
    assert pipes.connection.receive() == b"?"
    assert pipes.written() == b"$OK#9a$OK#9a+"


def test_a_packet_that_gdb_repeats_is_answered_once(pipes: Pipes) -> None:
    """gdb sends it again, and `-`, when it has waited for two seconds."""
    pipes.give(framed(b"?") + framed(b"?") + b"-" + framed(b"?") + b"-")
    assert pipes.connection.receive() == b"?"
    pipes.give(b"-")
    pipes.connection.send(b"T05")
    pipes.give(b"+" + framed(b"g"))
    assert pipes.connection.receive() == b"g"
    assert pipes.written() == b"+" + framed(b"T05") + b"+"


def test_without_acknowledgements_none_are_written(pipes: Pipes) -> None:
    pipes.connection.acknowledges = False
    pipes.give(framed(b"g"))
    assert pipes.connection.receive() == b"g"
    pipes.connection.send(b"x")
    assert pipes.written() == framed(b"x")


def test_what_is_no_packet_is_dropped(pipes: Pipes) -> None:
    pipes.give(b"noise\x03\n" + framed(b"g"))
    assert pipes.connection.receive() == b"g"
    pipes.give(b"$" + b"a" * (2 * MOST_BYTES + 1))
    os.set_blocking(pipes.ends[0], False)
    with pytest.raises(BlockingIOError):
        pipes.connection.receive()
    pipes.give(framed(b"?"))
    assert pipes.connection.receive() == b"?"


def test_the_end_of_gdb(pipes: Pipes) -> None:
    os.close(pipes.sink)
    with pytest.raises(Gone):
        pipes.connection.receive()
    os.close(pipes.source)
    with pytest.raises(Gone):
        pipes.connection.send(b"OK")


def test_ctrl_c_counts_while_the_machine_runs(pipes: Pipes) -> None:
    pipes.give(b"\x03")
    pipes.connection.look()
    pipes.connection.is_running = True
    with pytest.raises(Interrupted):
        pipes.connection.look()
    pipes.connection.look()
    pipes.give(b"\x03")
    silent, end = os.pipe()
    with pytest.raises(Interrupted):
        pipes.connection.wait_for(silent)
    os.write(end, b"x")
    pipes.connection.wait_for(silent)
    os.close(pipes.sink)
    with pytest.raises(Gone):
        pipes.connection.look()
    os.close(silent)
    os.close(end)


def test_the_target_description_numbers_the_registers() -> None:
    target = ElementTree.fromstring(target_description())
    assert target.findtext("architecture") == "riscv:rv32"
    features = {it.get("name"): list(it) for it in target.findall("feature")}
    assert list(features) == [CPU, OWN]
    numbered = {int(it.get("regnum", "")): it for regs in features.values() for it in regs}
    assert [numbered[at].get("name") for at in sorted(numbered)] == [it.name for it in REGISTERS]
    assert [numbered[at].get("name") for at in (0, 1, 2, 10, PC)] == [
        "zero",
        "ra",
        "sp",
        "a0",
        "pc",
    ]
    assert len(features[CPU]) == 33


def test_registers_are_bytes_in_the_order_of_memory() -> None:
    pc, cycle = REGISTERS[PC], REGISTERS[-2]
    assert spelled(pc, 0x1234_5678) == "78563412"
    assert spelled(pc, None) == "xxxxxxxx"
    assert spelled(cycle, 5) == "0500000000000000"
