"""What is read of dumps and settings."""
from __future__ import annotations

import subprocess
from pathlib import Path

import pytest
from fptools.testing.common import TOP
from fptools.files.dump import NoDump, Setting, Turn, read_dump, read_phases
from fptools.testing.modelled import issues_of, make, program

SOURCE = """
        li   x5, 42
        li   x6, 0x20000000
        li   x7, 0x40000000
        csrw mscratch, x5
        sw   x5, 8(x6)
        sw   x5, 0(x7)
        gt   x10
        addi x10, x10, 400
        ee   x0, x10
        wu   x0, x10
here:   j    here
"""


def written(folder: Path, *words: object) -> str:
    ran = subprocess.run(
        [program(folder), *map(str, words)], cwd=TOP, capture_output=True, text=True, check=True
    )
    return ran.stdout


def test_the_state_of_a_machine(tmp_path: Path) -> None:
    made = make(tmp_path, SOURCE, 0)
    state = read_dump(written(tmp_path, "dump", made.setup, "--cycles", 60))
    thread = state.threads[0]
    assert (state.cycles, len(state.threads)) == (60, 8)
    assert thread.registers[5:8] == (42, 0x2000_0000, 0x4000_0000)
    assert (thread.mscratch, thread.latch, state.data[0x2000_0008]) == (42, 42, 42)
    start = next(
        it.cycle
        for it in issues_of(made.setup.read_text(), made.image, 60)
        if it.word & 0x707F == 0x0B
    )
    assert (thread.armed, thread.sleep) == (10 * start + 400, 10 * start + 400)
    assert state.threads[1].registers == (0,) * 32 and state.threads[1].armed is None
    assert state.slots & 0xF == 0 and state.modes & 3 == 0


def test_turns_in_the_stages(tmp_path: Path) -> None:
    made = make(tmp_path, "        lw   x5, 0(x0)\n        nop\n", 0, "T0 D D D D D D D")
    state = read_dump(written(tmp_path, "dump", made.setup, "--cycles", 4))
    assert (state.fetching, state.stages["M"], state.stages["E"]) == (
        0,
        Turn(0, 0, 0x0000_2283),
        Turn(0),
    )
    assert state.stages["E"].is_flushed and not state.stages["M"].is_flushed
    assert read_dump(written(tmp_path, "dump", made.setup, "--cycles", 0)).stages["W"] == Turn()


def test_settings(tmp_path: Path) -> None:
    assert read_phases((TOP / "examples/sleep.phases").read_text())[:2] == [
        Setting(0, 0xFFFF_FF10, 0xFFE4), Setting(6, 0xFFFF_FF10, 0xFFE0),
    ]  # fmt: skip
    with pytest.raises(NoDump, match="line 2: no setting: 'x'"):
        read_phases("         0 ffffff10 0000ffe4\nx\n")


def test_every_example_is_read(tmp_path: Path) -> None:
    for setup in sorted(TOP.glob("examples/*.toml")):
        text = written(tmp_path, "dump", setup, "--cycles", 30)
        assert read_dump(text).cycles == 30


@pytest.mark.parametrize(
    ("old", "new", "fault"),
    [
        ("cycles 30", "cycle 30", "line 1: no 'cycles': 'cycle 30'"),
        ("\nF ", "\nF T9", "line 2: what follows 'F' is none of its forms"),
        ("T1 x08 00000000", "T1 x08 0000000", "line 19: no 8 words after 'T1 x08'"),
        ("T0 latch", "T0 lach", "line 17: no 'T0 latch'"),
        ("[20000000]", "[2000000]", "no words of data"),
    ],
)
def test_what_no_dump_is(tmp_path: Path, old: str, new: str, fault: str) -> None:
    text = written(tmp_path, "dump", "examples/drive.toml", "--cycles", 30)
    assert old in text
    with pytest.raises(NoDump) as found:
        read_dump(text.replace(old, new, 1))
    assert fault in str(found.value)
    with pytest.raises(NoDump):
        read_dump(text[: len(text) // 2])
