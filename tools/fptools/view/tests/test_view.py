"""fp_view: windows by event, names, and the forms of a view."""
from __future__ import annotations

import shutil
import subprocess
from pathlib import Path
from xml.etree import ElementTree

import pytest
from fptools.testing.common import TOP, Tool
from fptools.files.trace import Event, read_trace
from dev.fuzz.view_forms import Dump
from fptools.view.drawer import drawn
from fptools.view.rows import Row, rows_of
from fptools.view.tests.views import SPACE, refused, said

pytest_plugins = ["fptools.view.tests.fixtures"]

PID = ("examples/c/pid.toml", "--elf", "examples/c/pid.elf")
SETUPS = ("drive", "sleep", "traps", "slots", "wave", "big")
CELLS = {"i", "f", "t", "h", "w"}


def plain(view: str, setup: str, first: int, end: int, *form: str) -> str:
    """What the view itself writes of an example."""
    words = [view, "turns", f"examples/{setup}.toml", "--from", str(first), "--to", str(end), *form]
    return subprocess.run(words, cwd=TOP, capture_output=True, text=True, check=True).stdout


def events_of(flexpret: str, setup: str, thread: int, cycles: int) -> list[Event]:
    """The trace of a run of an example."""
    words = [flexpret, "run", setup, "--thread", str(thread), "--cycles", str(cycles)]
    with subprocess.Popen(words, cwd=TOP, stdout=subprocess.PIPE) as ran:
        assert ran.stdout is not None
        return list(read_trace(ran.stdout))


def cycles_of(text: str) -> list[int]:
    return [int(line[:10]) for line in text.splitlines()[1:]]


@pytest.mark.parametrize(
    ("event", "cycle"),
    [
        ("trap", 20),
        ("trap,nth=2", None),
        ("trap=24", 468),
        ("wait,thread=0", None),
        ("pc=0x40", 460),
    ],
)
def test_a_window_around_an_event(
    viewing: Tool, flexpret: str, event: str, cycle: int | None
) -> None:
    setup = "examples/traps.toml" if cycle or "trap" in event else "examples/drive.toml"
    events = events_of(flexpret, setup, 0, 600)
    if cycle is None:
        traps = [it.cycle for it in events if it.cause is not None]
        waits = [it.cycle for it in events if it.is_wait]
        cycle = traps[1] if "trap" in event else waits[0]
    text = said(viewing, setup, "--around", event, "--before", "3", "--after", "2")
    assert cycles_of(text) == list(range(cycle - 3, cycle + 2))


def test_a_store_that_is_the_nth(viewing: Tool, flexpret: str) -> None:
    stores = [
        it.cycle
        for it in events_of(flexpret, "examples/c/pid.toml", 0, 9000)
        if it.store == 0x4000_0000
    ]
    for nth in (1, 3):
        event = f"store=0x40000000,nth={nth},thread=0"
        text = said(
            viewing, "examples/c/pid.toml", "--around", event, "--before", "0", "--after", "1"
        )
        assert cycles_of(text) == [stores[nth - 1]]


def test_the_events_of_all_threads_are_in_one_order(viewing: Tool, flexpret: str) -> None:
    drive = "examples/drive.toml"
    cycles = [
        it.cycle
        for thread in range(2, 8)
        for it in events_of(flexpret, drive, thread, 400)
        if it.pc == 0x100
    ]
    assert cycles != sorted(cycles)
    for nth in (1, 2, 9):
        event = f"pc=0x100,nth={nth}"
        text = said(viewing, drive, "--around", event, "--before", "0", "--after", "1")
        assert cycles_of(text) == [sorted(cycles)[nth - 1]]


def test_a_window_begins_with_the_run(viewing: Tool) -> None:
    text = said(viewing, "examples/drive.toml", "--around", "pc=0", "--after", "2")
    assert cycles_of(text) == [0, 1]


def test_an_event_that_never_comes(viewing: Tool) -> None:
    drive = "examples/drive.toml"
    for event, within, often in (
        ("trap", "5000", "doesn't come"),
        ("wait,thread=0,nth=3", "60", "comes once"),
        ("wait,thread=0,nth=9", "200", "comes 3 times"),
    ):
        text = f"fp_view: {event}: it {often} within {within} cycles; --within looks further"
        assert refused(viewing, drive, "--around", event, "--within", within) == (1, text)


def test_symbols_and_source_lines(viewing: Tool, tmp_path: Path) -> None:
    window = ("--around", "pc=step_end,thread=0", "--before", "4", "--after", "1", "--threads", "0")
    text = said(viewing, *PID, *window)
    lines = [" ".join(line.split()[11:]) for line in text.splitlines()[1:]]
    assert [line.split()[-1] for line in lines] == ["step_begin+0xec", "step_end"]
    picture = said(viewing, *PID, *window, "--svg", "-")
    titles = [it.text or "" for it in ElementTree.fromstring(picture).iter(f"{SPACE}title")]
    assert [it.splitlines()[1] for it in titles if it.startswith("cycle")] == [
        "step_begin+0xec",
        "step_end",
    ]


def test_source_lines_of_an_executable_that_has_them(viewing: Tool, tmp_path: Path) -> None:
    compiler = shutil.which("riscv64-unknown-elf-gcc")
    if compiler is None:
        pytest.skip("gcc for RISC-V isn't installed")
    source, elf = tmp_path / "a.s", tmp_path / "a.elf"
    source.write_text(
        ".globl _start\n_start: addi x5, x0, 1\nloop: addi x5, x5, 1 # <\x07&\nj loop\n"
    )
    options = [
        "-march=rv32i",
        "-mabi=ilp32",
        "-nostdlib",
        "-g",
        "-Wl,-Ttext=0",
        "-Wl,-melf32lriscv",
    ]
    subprocess.run([compiler, *options, "-o", elf, source], check=True)
    image, setup = tmp_path / "a.fpx", tmp_path / "a.toml"
    ran = subprocess.run(
        [viewing.environment["FLEXPRET"], "elf", str(elf)], capture_output=True, check=True
    )
    image.write_bytes(ran.stdout)
    example = (TOP / "examples/traps.toml").read_text()
    setup.write_text(example.replace("examples/traps.fpx", str(image)))
    words = (str(setup), "--elf", str(elf), "--from", "0", "--to", "20")
    lines = [line for line in said(viewing, *words).splitlines() if " T0 00000004 " in line]
    assert lines and all(
        line.endswith("loop                   a.s:3 loop: addi x5, x5, 1 # < &") for line in lines
    )
    ElementTree.fromstring(said(viewing, *words, "--svg", "-"))
    dump = Dump(said(viewing, *words, "--vcd", "-"))
    assert dump.times[5][1]["flexpret.T0.source"] == "a.s:3_loop:_addi_x5,_x5,_1_#_<_&"


def test_an_executable_of_another_image(viewing: Tool) -> None:
    words = ("examples/drive.toml", "--elf", "examples/c/pid.elf", "--from", "0", "--to", "5")
    text = "0x0 start0: the image isn't made of examples/c/pid.elf: make it again by `elf`"
    assert refused(viewing, *words) == (2, f"fp_view: {text}")


@pytest.mark.parametrize("setup", SETUPS)
def test_without_more_the_text_is_that_of_the_view(viewing: Tool, view: str, setup: str) -> None:
    first, end = 443, 520
    text = said(viewing, f"examples/{setup}.toml", "--from", str(first), "--to", str(end))
    lines = [line.partition(" (")[0] if " trap " in line else line for line in text.splitlines()]
    assert lines == plain(view, setup, first, end).splitlines()


def test_lines_of_some_threads(viewing: Tool, view: str) -> None:
    text = said(viewing, "examples/drive.toml", "--from", "0", "--to", "60", "--threads", "0,3")
    lines = plain(view, "drive", 0, 60).splitlines()
    assert text.splitlines() == [lines[0]] + [it for it in lines if it[46:48] in ("T0", "T3")]


def cells_of(picture: str, column: int, left: int) -> list[tuple[str, float, str]]:
    """The class, column and title of each cell of a turn."""
    found = []
    for node in ElementTree.fromstring(picture).iter(f"{SPACE}rect"):
        kind, title = node.get("class", ""), node.find(f"{SPACE}title")
        if kind.split(" ")[0] in CELLS and title is not None:
            text = " ".join((title.text or "").split("\n")[0].split())
            found.append((kind, (float(node.get("x", "")) - left) / column, text))
    return found


@pytest.mark.parametrize("setup", SETUPS)
@pytest.mark.parametrize("zoom", [1, 7])
def test_the_cells_are_those_of_the_view(viewing: Tool, view: str, setup: str, zoom: int) -> None:
    window = ("--from", "443", "--to", "520")
    own = said(viewing, f"examples/{setup}.toml", *window, "--svg", "-", "--zoom", str(zoom))
    found = [
        (kind.replace("w", "i"), at, text.partition(" (")[0])
        for kind, at, text in cells_of(own, 12 * zoom, 52)
    ]
    assert found == [
        (kind_of(row), row.cycle - 443, " ".join(f"cycle {row.cycle}, {row.time} ns: {row.line[46:]}".split()))
        for row in rows_of(plain(view, setup, 443, 520, "--state").splitlines())
        if row.turn is not None
    ]  # fmt: skip


def kind_of(row: Row) -> str:
    """The classes of a turn's cell, without those of a wait."""
    kind = {"flushed": "f", "held": "h", "trap": "t"}.get(row.line[94:].split(" ")[0], "i")
    thread = row.line[46:48]
    kind = "f" if row.line[49:] == "flushed" else kind
    return kind if row.slot in ("S", thread) else f"{kind} d"


@pytest.mark.parametrize("setup", SETUPS)
def test_stages_are_those_of_the_text(viewing: Tool, view: str, setup: str) -> None:
    words = (f"examples/{setup}.toml", "--from", "443", "--to", "520", "--svg", "-", "--stages")
    height = 62  # of a thread's row
    found = set()
    for node in ElementTree.fromstring(said(viewing, *words)).iter(f"{SPACE}rect"):
        kind = node.get("class", "")
        if kind.split(" ")[0] in CELLS and node.find(f"{SPACE}title") is not None:
            thread, y = divmod(int(node.get("y", "")) - 52, height)
            cycle = 443 + (int(node.get("x", "")) - 52) // 12
            found.add((cycle, (y - 1) // 12, f"{thread}{'x' if kind[0] == 'f' else ' '}"))
    wanted = set()
    for line in plain(view, setup, 443, 520).splitlines()[1:]:
        stages = [line[at : at + 2] for at in range(31, 46, 3)]
        wanted |= {(int(line[:10]), at, it) for at, it in enumerate(stages) if it != ". "}
    assert found == wanted


@pytest.mark.parametrize("setup", SETUPS)
def test_signals_are_those_of_the_view_and_of_runs(
    viewing: Tool, view: str, flexpret: str, setup: str
) -> None:
    words = (f"examples/{setup}.toml", "--from", "0", "--to", "500", "--vcd", "-")
    rows = rows_of(plain(view, setup, 0, 500, "--state").splitlines())
    dump, given = Dump(said(viewing, *words)), Dump("\n".join(drawn("vcd", rows, 0)))
    assert [time for time, _ in dump.times] == [time for time, _ in given.times]
    for (_, values), (_, wanted) in zip(dump.times, given.times):
        assert wanted.items() <= values.items()
    for thread in range(8):
        events = {
            it.cycle: it
            for it in events_of(flexpret, f"examples/{setup}.toml", thread, 504)
            if it.cycle < 500
        }
        for cycle, (_, values) in enumerate(dump.times[:-1]):
            assert own_signals(values, thread) == of_event(events.get(cycle))
    for cycle, line in enumerate(plain(view, setup, 0, 500).splitlines()[1:]):
        standing = [dump.times[cycle][1][f"flexpret.stages.{it}"][:2] for it in "FDEMW"]
        wanted_stages = [line[at] for at in range(31, 46, 3)]
        assert standing == ["-" if it == "." else f"T{it}" for it in wanted_stages]


def own_signals(values: dict[str, str], thread: int) -> tuple[str, ...]:
    """What a dump has of a thread's trap, store and wait in a cycle."""

    def value(name: str) -> str:
        return values[f"flexpret.T{thread}.{name}"]

    cause = value("cause") if value("trap") == "1" else ""
    stored = (value("store_address"), value("store_word")) if value("store") == "1" else ("", "")
    return (value("trap"), cause, value("store"), *stored, value("wait"))


def of_event(event: Event | None) -> tuple[str, ...]:
    """The same by a trace."""
    if event is None:
        return ("0", "", "0", "", "", "0")
    stored, cause = event.stored, event.cause
    words = ("1", f"{stored.address:b}", f"{stored.value:b}") if stored else ("0", "", "")
    trap = ("0", "") if cause is None else ("1", f"{cause:b}")
    return (*trap, *words, str(int(event.is_wait)))


def test_a_held_du_in_the_dump(viewing: Tool, view: str) -> None:
    words = ("examples/c/pid.toml", "--from", "850", "--to", "900")
    lines = said(viewing, *words).splitlines()[1:]
    held = [int(line[:10]) for line in lines if line.endswith(" held")]
    dump = Dump(said(viewing, *words, "--vcd", "-", "--threads", "1"))
    shown = [
        850 + at for at, (_, it) in enumerate(dump.times[:-1]) if it["flexpret.T1.held"] == "1"
    ]
    assert held and shown == held
    assert {it.split(".")[1] for it, _, _ in dump.widths.values()} == {
        "slot",
        "modes",
        "stages",
        "T1",
    }
