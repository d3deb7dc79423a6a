"""How a session of gdb ends, and what it does about files, programs and packets that are wrong."""
from __future__ import annotations

import random
import shutil
import signal
import time
from pathlib import Path

import pytest
from fptools.testing.common import TOP, Tool
from fptools.gdb.history import WINDOW, History
from fptools.gdb.packets import framed
from fptools.gdb.runs import Runs, last_cycle, offset_of
from fptools.gdb.state import States
from fptools.program.calls import Flexpret
from fptools.limits import DATA_START
from fptools.gdb.tests.gdb_client import Client
from fptools.gdb.tests.sessions import PID, STEP_BEGIN, STEP_END, cycle_of

pytest_plugins = ["fptools.gdb.tests.fixtures"]


def test_the_end_of_a_session(flexpret: str) -> None:
    for packet, answer in (("D", "OK"), ("vKill;1", "OK"), ("k", None)):
        with Client(flexpret, PID) as client:
            client.ask("vCont;s:1")
            client.write(framed(packet.encode()))
            assert answer is None or client.answer() == answer
            assert client.child.wait(10) == 0
    with Client(flexpret, PID) as client:
        assert client.child.stdin
        client.child.stdin.close()
        assert client.child.wait(10) == 0


def processes_of(setup: Path) -> list[int]:
    """The processes whose arguments name a setup."""
    found = []
    for folder in Path("/proc").glob("[0-9]*"):
        try:
            if str(setup).encode() in (folder / "cmdline").read_bytes():
                found.append(int(folder.name))
        except OSError:
            continue
    return found


@pytest.mark.parametrize("how", [signal.SIGKILL, signal.SIGTERM, signal.SIGHUP, None])
def test_no_process_is_left_in_the_middle_of_a_run(
    flexpret: str, own: Path, how: signal.Signals | None
) -> None:
    """None: gdb is gone without a word."""
    with Client(flexpret, own, "--cycles", 3_000_000_000) as client:
        client.write(framed(b"vCont;c:-1"))
        until = time.monotonic() + 20
        while len(processes_of(own)) < 4 and time.monotonic() < until:
            time.sleep(0.05)
        assert len(processes_of(own)) >= 4
        if how is None:
            assert client.child.stdin
            client.child.stdin.close()
        else:
            client.child.send_signal(how)
        client.child.wait(10)
        until = time.monotonic() + 5
        while processes_of(own) and time.monotonic() < until:
            time.sleep(0.05)
        assert processes_of(own) == []


def test_ctrl_c_stops_a_long_run(flexpret: str, own: Path) -> None:
    with Client(flexpret, own, "--cycles", 3_000_000_000) as client:
        for packet in ("vCont;c:-1", "vCont;c:-1", "bc"):
            client.write(framed(packet.encode()))
            time.sleep(0.3 if packet != "bc" else 0)
            client.write(b"\x03")
            assert client.answer().startswith("T02thread:1;" if packet != "bc" else "T0")
        assert cycle_of(client) >= 0 and client.registers(0)["sp"] == 0x2000_0800 - 16


def test_ctrl_c_on_the_way_to_a_cycle_leaves_the_machine_where_it_was(
    flexpret: str, own: Path
) -> None:
    with Client(flexpret, own, "--cycles", 3_000_000_000) as client:
        client.go_to(100)
        client.monitor("cycle 2900000000")
        client.write(framed(b"vCont;c:-1"))
        time.sleep(0.3)
        client.write(b"\x03")
        assert client.answer() == "T02thread:1;"
        assert cycle_of(client) == 100


def test_files_that_change_end_a_run(flexpret: str, own: Path) -> None:
    with Client(flexpret, own) as client:
        client.ask("vCont;s:1")
        own.write_text(own.read_text() + "\n")
        answer = client.go_to(9_000_000)
        assert answer == f"E.{own} has changed since the session began: connect again"
        assert client.registers(0)["cycle"] == 1


def test_a_step_a_million_cycles_in_is_quick(flexpret: str) -> None:
    with Client(flexpret, PID) as client:
        client.go_to(1_000_000)
        times = []
        for step in ["vCont;s:1"] * 10 + ["bs"] * 10:
            begun = time.monotonic()
            client.ask(step)
            client.ask("g")
            client.memory(DATA_START, 64)
            client.ask("qXfer:threads:read::0,1000")
            times.append(time.monotonic() - begun)
        assert sorted(times)[10] < 0.2, times


def no_runs(folder: Path, flexpret: str) -> Path:
    """A program that has no runs."""
    script = folder / "no-runs"
    script.write_text(f'#!/bin/sh\n[ "$1" != run ] || exit 9\nexec {flexpret} "$@"\n')
    script.chmod(0o755)
    return script


def test_a_name_that_is_no_text_is_told(flexpret: str, tmp_path: Path) -> None:
    setup = tmp_path / "\udcff.toml"
    setup.write_text("period = 0")
    with Client(flexpret, setup, acknowledges=True) as client:
        client.write(framed(b"qSupported:swbreak+"))
        assert "?.toml:1: " in client.answer()
        assert client.child.wait(10) == 2


def test_a_program_that_is_gone_ends_no_session(flexpret: str, tmp_path: Path) -> None:
    program = tmp_path / "flexpret"
    shutil.copy(flexpret, program)
    with Client(str(program), PID) as client:
        client.ask("vCont;s:1")
        program.unlink()
        assert client.go_to(9_000_000).startswith("E.")
        bound = f"qRcmd,{f'bound {STEP_BEGIN} {STEP_END}'.encode().hex()}"
        assert client.ask(bound).startswith(f"E.the program {program}: No such file or directory")
        assert client.registers(0)["cycle"] == 1


def test_a_refusal_goes_to_gdb_and_to_standard_error(flexpret: str, tmp_path: Path) -> None:
    bad = tmp_path / "bad.toml"
    bad.write_text((TOP / PID).read_text().replace('"S", "T1"', '"X", "T1"'))
    lost = tmp_path / "lost.toml"
    lost.write_text((TOP / PID).read_text().replace("pid.fpx", "nobody.fpx"))
    other = ["--elf", "tools/fptools/testing/calls.elf"]
    cases: list[tuple[Path, list[str], str]] = [
        (bad, [], f"{bad}:10: slots[1]: 'X' is not one of"),
        (tmp_path / "no.toml", [], "No such file"),
        (lost, [], "nobody.fpx"),
        (TOP / PID, other, "examples/c/pid.fpx isn't made of tools/fptools/testing/calls.elf"),
        (TOP / PID, ["--elf", PID], "is no ELF file"),
        (TOP / PID, ["--flexpret", str(tmp_path / "no")], "No such file"),
        (TOP / PID, ["--flexpret", "/bin/false"], "status 1"),
        (TOP / PID, ["--flexpret", str(no_runs(tmp_path, flexpret))], "--thread 0 --cycles"),
        (tmp_path, [], "Is a directory"),
        (TOP / PID, ["--elf", str(tmp_path)], "Is a directory"),
    ]
    for setup, options, said in cases:
        with Client(flexpret, setup, *options, acknowledges=True) as client:
            client.write(framed(b"qSupported:swbreak+"))
            answer = client.answer()
            assert answer.startswith("E.fp_gdb: ") and said in answer
            assert client.child.wait(10) == 2
            assert client.child.stderr
            error = client.child.stderr.read().decode()
            assert said in error and error.count("\n") == 1


def test_arguments(asking: Tool) -> None:
    for cycles in ("0", "4000000000", "x"):
        ran = asking("fp_gdb", PID, "--cycles", cycles)
        assert ran.returncode == 2 and "--cycles" in ran.stderr
    ran = asking("fp_gdb", PID, given="garbage")
    assert (ran.returncode, ran.stdout, ran.stderr) == (0, "", "")


@pytest.mark.parametrize("given", ["", "garbage"])
def test_a_refusal_has_its_status_without_gdb(asking: Tool, tmp_path: Path, given: str) -> None:
    ran = asking("fp_gdb", tmp_path / "no.toml", given=given)
    assert (ran.returncode, ran.stdout) == (2, "")
    assert ran.stderr.startswith("fp_gdb: ") and "No such file" in ran.stderr


def test_nothing_that_is_sent_breaks_a_session(flexpret: str) -> None:
    """Packets that gdb doesn't send get one answer each."""
    drawn = random.Random(7)
    known = (
        "? g G0 m20000000,4 m0 p20 P1=0 M0,1:0 Hg1 Hc-1 T1 qC qfThreadInfo qThreadExtraInfo,1 "
        "vCont;s:1 vCont;r0,8:1 vCont? Z0,b4,4 z0,b4,4 Z2,20000028,4 z2,20000028,4 Z4,20000028,4 "
        "bs bc s c qXfer:features:read:target.xml:0,10 qXfer:threads:read::0,10 qSupported:x "
        "qRcmd,68656c70"
    ).split()
    with Client(flexpret, PID, "--cycles", 4000) as client:
        for _ in range(600):
            packet = list(drawn.choice(known))
            for _ in range(drawn.randrange(4)):
                at = drawn.randrange(len(packet) + 1)
                packet[at : at + drawn.randrange(2)] = drawn.choice("0179abfx,;:-=#$}*qZ\x00\xff")
            text = "".join(packet)
            if text in ("k", "D") or text.startswith("vKill"):
                continue
            answer = client.ask(text)
            while answer.startswith("O") and answer != "OK":
                answer = client.answer()
        assert client.ask("T8") == "OK"
        client.child.kill()
        assert client.child.stderr and client.child.stderr.read() == b""


class Patient:
    """Waits as long as it takes."""

    def wait_for(self, descriptor: int) -> None:
        """The read waits itself."""

    def look(self) -> None:
        """Nobody breaks off."""


def test_windows_are_those_of_the_trace(flexpret: str, monkeypatch: pytest.MonkeyPatch) -> None:
    """Also where calls are too short at first, and where windows were dropped."""
    monkeypatch.setattr("fptools.gdb.history.MOST_BYTES", 1 << 19)
    monkeypatch.chdir(TOP)
    runs = Runs(Flexpret(flexpret), Path(PID), 64 * WINDOW + 4, Patient())
    history = History(runs, range(8))
    for stream in history._streams:
        stream._cycles = 3000
    traces = {thread: runs.trace(thread, 64 * WINDOW + 4).whole() for thread in (0, 2, 7)}
    drawn = random.Random(51)
    numbers = [*range(20), *range(19, 9, -1), *(drawn.randrange(64) for _ in range(20)), 63, 0]
    for number in numbers:
        window = history.window(number)
        for thread, trace in traces.items():
            start, end = (offset_of(trace, cycle) for cycle in (window.first, window.end))
            assert window.texts[thread] == trace[start:end], (number, thread)
            assert last_cycle(
                window.before[thread] + b"\n" if window.before[thread] else b""
            ) == last_cycle(trace[:start])
    assert history._size <= 1 << 19
    history.close()


@pytest.mark.parametrize("key", [b" 000000b4 ", b"[2000002", b" 00000000 "])
def test_a_search_backwards_finds_all_windows_with_a_key(
    flexpret: str, monkeypatch: pytest.MonkeyPatch, key: bytes
) -> None:
    """Where windows were dropped, and again forwards over them."""
    monkeypatch.setattr("fptools.gdb.history.MOST_BYTES", 1 << 20)
    monkeypatch.chdir(TOP)
    runs = Runs(Flexpret(flexpret), Path(PID), 64 * WINDOW + 4, Patient())
    history = History(runs, range(8))
    history.window(60)
    found = {
        it.number: it.texts
        for it in history.backwards(60 * WINDOW, [key])
        if any(key in text for text in it.texts)
    }
    forwards = {it.number: it.texts for it in history.onwards(0, 60 * WINDOW)}
    assert list(found) == sorted(found, reverse=True)
    assert found == {
        number: texts for number, texts in forwards.items() if any(key in text for text in texts)
    }
    history.close()


def test_states_are_carried_and_asked_for(flexpret: str, monkeypatch: pytest.MonkeyPatch) -> None:
    monkeypatch.chdir(TOP)
    runs = Runs(Flexpret(flexpret), Path(PID), 90 * WINDOW + 4, Patient())
    history = History(runs, range(8))
    asked, one = States(runs, history), States(runs, history)
    for number in (0, 3, 80, 79, 60, 61, 77, 2):
        carried = one.of_window(0).copy()
        for earlier in range(number):
            window = history.window(earlier)
            carried.carry(window, window.first, window.end)
        found = asked.of_window(number)
        assert {at: word for at, word in found.data.items() if word} == {
            at: word for at, word in carried.data.items() if word
        }
        found.data = carried.data
        assert found == carried, number
    history.close()
