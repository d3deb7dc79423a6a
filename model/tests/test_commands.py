"""Questions, setups and sources that no table of the repository has."""
from __future__ import annotations

import pytest

from model.assembler import SourceFault, assemble
from model.commands import MemFiles, MemSink, Status, answer, flexpret
from model.ports import HeldPort
from model.questions import ask
from model.setups import SetupFault, read_setup
from model.tables.forms import TOP

EXAMPLES = TOP / "examples"


@pytest.mark.parametrize(
    ("line", "is_asked"),
    [
        ("run a --thread 0 --cycles 5", True), ("run --cycles=5 a --thread=7", True), ("run a --thread 00 --cycles 5",
        False),
        ("run a --thread 0 --cycles 0000000005", True), ("run a --thread 0 --cycles 00000000005", False),
        ("run a --thread 0 --thread 0 --cycles 5", False), ("run a --thread 0 --cycles 5 --", False), ("help", False),
        ("bound a --thread 0 --from 0X0 --to 0x10", False), ("bound a --thread 0 --from 0xABcd --to 9", True),
        ("check a --thread 0 --cycles 1000001 --trace t", False), ("selfrun 4294967295", True), ("selfrun 0x1", False),
    ],
)  # fmt: skip
def test_questions(line: str, is_asked: bool) -> None:
    assert (ask(line.split()) is not None) == is_asked


def fault_of(setup: bytes) -> tuple[int, str] | None:
    try:
        read_setup(setup)
    except SetupFault as fault:
        return fault.code, fault.path
    return None


def test_faults_of_setups() -> None:
    drive = (EXAMPLES / "drive.toml").read_bytes()
    assert fault_of(drive) is None
    assert fault_of(b"\xef\xbb\xbf" + drive) is None
    assert fault_of(drive + b" " * (262_145 - len(drive))) == (1, "-")
    assert fault_of(drive.replace(b"period = 10", b"period = 9223372036854775808")) == (2, "-")
    assert fault_of(drive.replace(b"period = 10", b"period = 9223372036854775807")) == (6, "period")
    assert fault_of(drive.replace(b"confined = true", b"confined = true\npermit = true", 1)) == (
        10,
        "thread[0].permit",
    )


def test_faults_of_sources() -> None:
    for source, line, code in (
        (b"a:\na:\n", 2, 6),
        (b"j far\n", 1, 7),
        (b"nop nop\n", 1, 4),
        (b"\xff", 1, 2),
    ):
        with pytest.raises(SourceFault) as caught:
            assemble(source)
        assert (caught.value.line, caught.value.code) == (line, code)


def test_a_put_that_fails_stops_the_run() -> None:
    files = {path.name: path.read_bytes() for path in EXAMPLES.glob("drive.*")}
    setup = files["drive.toml"].replace(b"examples/", b"")
    sink = MemSink({1: 3})
    words = "run drive.toml --thread 0 --cycles 77".split()
    status = flexpret(
        words, MemFiles({**files, "drive.toml": setup}), sink, [HeldPort() for _ in range(8)]
    )
    assert (status, len(sink.puts)) == (Status.WRITE, 2)
    assert files["drive.trace"].startswith(sink.bytes)


def test_a_file_that_is_not_there() -> None:
    assert answer(["asm", "none"], {}) == (Status.READ, b"")
