"""Records of a core's signals: as traces, and compared with the program, by fp_record."""
from __future__ import annotations

import re
import subprocess
import sys
from collections.abc import Iterable, Iterator, Sequence
from pathlib import Path

import pytest
from fptools.testing.common import TOP, Tool
from fptools.files.image import read_image
from fptools.files.lint import read_valid
from fptools.core.loaded import loaded
from fptools.core.records import RETIRES, SIGNALS, WORDS


from dev.fuzz.core_faults import FAULTS, faulty

EXAMPLES = TOP / "examples"
TRACES = ("drive", "traps", "sleep", "slots", "frame", "moments", "products", "big")
EFFECT = re.compile(
    r"(?:x(?P<rd>\d\d)=(?P<value>\w{8}) ?)?"
    r"(?:\[(?P<address>\w{8})\]/(?P<size>\d)=(?P<data>\w{8}))?"
    r"(?:csr (?P<csr>\w{3})=(?P<new>\w{8}))?"
    r"(?:trap (?P<cause>\d+) -> (?P<target>\w{8}))?"
    r"(?P<sleep>wait)?-?"
)
Row = dict[str, int]


def row_of(thread: int, line: str) -> Row:
    """The signals of a core when the event of a line retires."""
    found = EFFECT.fullmatch(line[29:].rstrip())
    assert found, line
    row = dict.fromkeys(SIGNALS, 0)
    for name, text in found.groupdict().items():
        if text and name not in ("sleep", "new"):
            row[name] = int(text, 16 if name in WORDS else 10)
    row |= {"sleep": int(bool(found["sleep"])), "trap": int(bool(found["cause"])), "valid": 1}
    if found["csr"]:
        row |= {"csr_write": 1, "data": int(found["new"], 16)}
    row |= {"thread": thread, "cycle": int(line[:10]) + RETIRES}
    return row | {"pc": int(line[11:19], 16), "word": int(line[20:28], 16)}


def rows_of(lines: Iterable[str], thread: int = 0) -> list[Row]:
    return [row_of(thread, line) for line in lines]


def csv_of(rows: Iterable[Row], columns: Sequence[str] = SIGNALS) -> str:
    """Rows as a CSV file."""
    shown = [[f"{row[it]:x}" if it in WORDS else str(row[it]) for it in columns] for row in rows]
    return "".join(",".join(fields) + "\n" for fields in [list(columns), *shown])


def vcd_of(rows: Sequence[Row], scopes: Sequence[str] = ("top", "core")) -> Iterator[str]:
    """Rows as a value change dump, with a signal of another scope that has the name of one."""
    yield "$timescale 1ns $end\n$scope module other $end\n"
    yield "$var wire 1 zz unit_pc $end\n$upscope $end\n"
    yield from (f"$scope module {scope} $end\n" for scope in scopes)
    for at, name in enumerate(SIGNALS):
        yield f"$var wire 64 a{at} {name} [63:0] $end\n"
    yield from ("$upscope $end\n" for _ in scopes)
    yield "$enddefinitions $end\n#0\nbxxxx a0\nx zz\n"
    idle = dict.fromkeys(SIGNALS, 0)
    known = {row["cycle"]: row for row in rows}
    for cycle in range(max(known) + 1):
        row = known.get(cycle, idle | {"cycle": cycle})
        yield f"#{10 * cycle}\n1zz\n"
        yield from (f"b{row[name]:b} a{at}\n" for at, name in enumerate(SIGNALS))


@pytest.mark.parametrize("name", TRACES)
@pytest.mark.parametrize("form", ["csv", "vcd"])
def test_a_record_is_the_trace(tool: Tool, tmp_path: Path, name: str, form: str) -> None:
    trace = (EXAMPLES / f"{name}.trace").read_text()
    rows = rows_of(trace.splitlines())
    record = tmp_path / f"board.{form}"
    record.write_text(csv_of(rows) if form == "csv" else "".join(vcd_of(rows)))
    ran = tool("fp_record", record, "--thread", 0)
    assert (ran.returncode, ran.stdout, ran.stderr) == (0, trace, "")
    assert tool("fp_record", record, "--thread", 1).stdout == ""


def test_signals_may_have_other_names(tool: Tool, tmp_path: Path) -> None:
    trace = (EXAMPLES / "drive.trace").read_text()
    rows = rows_of(trace.splitlines())
    record = tmp_path / "board.csv"
    record.write_text(csv_of(rows).replace("pc,", "wb_pc,", 1))
    assert tool("fp_record", record, "--thread", 0, "--signal", "pc=wb_pc").stdout == trace
    record = tmp_path / "board.vcd"
    record.write_text("".join(vcd_of(rows)).replace("unit_pc", "pc"))
    ran = tool("fp_record", record, "--thread", 0)
    assert "2 signals pc: --signal pc=other.pc names one" in ran.stderr
    assert tool("fp_record", record, "--thread", 0, "--signal", "pc=core.pc").stdout == trace


def test_what_is_not_valid_or_comes_too_late_is_left_out(tool: Tool, tmp_path: Path) -> None:
    lines = (EXAMPLES / "drive.trace").read_text().splitlines(keepends=True)
    rows = rows_of(lines)
    rows.insert(1, dict.fromkeys(SIGNALS, 0) | {"cycle": 5})
    record = tmp_path / "board.csv"
    record.write_text(csv_of(rows))
    assert tool("fp_record", record, "--thread", 0, "--cycles", 25).stdout == "".join(lines[:6])


def test_effects_that_do_not_belong_together_are_all_written(tool: Tool, tmp_path: Path) -> None:
    row = row_of(3, "        20 00000014 0050a023 [20000000]/4=0000002a")
    row |= {"rd": 5, "value": 7, "sleep": 1}
    record = tmp_path / "board.csv"
    record.write_text(csv_of([row]))
    line = "        20 00000014 0050a023 x05=00000007 [20000000]/4=0000002a wait\n"
    assert tool("fp_record", record, "--thread", 3).stdout == line


GOOD = csv_of(rows_of((EXAMPLES / "drive.trace").read_text().splitlines()[:3]))
MORE = "the first row names each signal once"


@pytest.mark.parametrize(
    ("old", "new", "place", "said"),
    [
        ("rd,", "", 1, f"no column rd: {MORE}"),
        ("thread,", "thread,thread,", 1, f"more than one column thread: {MORE}"),
        ("valid,", "valid,speed,", 1, "unknown signal 'speed': leave the column out, or name a"),
        ("\n12,", "\n8,", 4, "cycle 8 after cycle 8: cycles must rise"),
        ("\n12,", "\n7,", 4, "cycle 7 after cycle 8: cycles must rise"),
        ("\n4,", "\n3,", 2, "an instruction retires in cycle 3, but none can before cycle 4: "),
        ("\n8,", "\n8,0,", 3, "17 fields, of 16"),
        ("\n8,", "\n-8,", 3, "cycle is '-8': write a decimal number, at most 0xffffffffffffffff"),
        ("200000b7", "2000x0b7", 2, "word is '2000x0b7': write a hexadecimal number, at most"),
        ("200000b7", "1200000b7", 2, "word is '1200000b7': write a hexadecimal number, at most"),
        ("40000137", '"40000137', 4, "unexpected end of data"),
    ],
)
def test_a_bad_record_is_one_line_with_its_place(
    tool: Tool, tmp_path: Path, old: str, new: str, place: int, said: str
) -> None:
    assert old in GOOD
    record = tmp_path / "board.csv"
    record.write_text(GOOD.replace(old, new, 1))
    ran = tool("fp_record", record, "--thread", 0)
    assert ran.returncode == 2 and ran.stderr.count("\n") == 1
    assert ran.stderr.startswith(f"fp_record: {record}:{place}: {said}")
    ran = tool("fp_record", record, "--compare", "examples/drive.toml", "--cycles", 77)
    assert (ran.returncode, ran.stdout) == (2, "")


def test_bad_dumps_and_files_are_one_line(tool: Tool, tmp_path: Path) -> None:
    rows = rows_of((EXAMPLES / "drive.trace").read_text().splitlines()[:3])
    text = "".join(vcd_of(rows))
    record = tmp_path / "board.vcd"
    falling = re.sub(r"b\d+ a0\n", "b11 a0\n", text).replace("b11 a0", "b101 a0", 1)
    for wrong, said in (
        (text.replace(" rd [", " wd ["), "no signal rd: the dump declares all signals"),
        (falling, "cycle 3 after cycle 5"),
        (text.replace(f"b{0x200000B7:b}", "bx0"), "word is 'x0': write a binary number"),
        ("", "no signal cycle"),
    ):
        record.write_text(wrong)
        ran = tool("fp_record", record, "--thread", 0)
        assert ran.returncode == 2 and ran.stderr.count("\n") == 1
        assert ran.stderr.startswith(f"fp_record: {record}:") and said in ran.stderr
    ran = tool("fp_record", tmp_path / "none.csv", "--thread", 0)
    assert (ran.returncode, ran.stdout) == (2, "") and "No such file" in ran.stderr
    (tmp_path / "bytes.csv").write_bytes(b"\xff\xfe")
    ran = tool("fp_record", tmp_path / "bytes.csv", "--thread", 0)
    assert ran.returncode == 2 and "not UTF-8" in ran.stderr and ran.stderr.count("\n") == 1


def test_wrong_arguments_are_named(tool: Tool, tmp_path: Path) -> None:
    for words, said in (
        (["--signal", "speed=x", "--thread", "0"], "'speed=x' is no NAME=THEIRS; the signals are"),
        (["--compare", "a.toml"], "--compare needs --cycles"),
        (["--compare", "a.toml", "--thread", "0"], "give either --thread or --compare"),
        (["--thread", "0", "--cycles", "x"], "'x' is no number up to 4000000000"),
    ):
        ran = tool("fp_record", tmp_path / "a.csv", *words)
        assert ran.returncode == 2 and said in ran.stderr


# ------------------------------------------------------------------------------------ comparisons


def record_run(flexpret: str, folder: Path, setup: str, cycles: int) -> Path:
    """The record of a core that does what the program does."""
    rows: list[Row] = []
    for thread in range(8):
        words = [flexpret, "run", setup, "--thread", str(thread), "--cycles", str(cycles)]
        ran = subprocess.run(words, cwd=TOP, capture_output=True, text=True, check=True)
        rows += rows_of(ran.stdout.splitlines(), thread)
    record = folder / "board.csv"
    record.write_text(csv_of(sorted(rows, key=lambda row: row["cycle"])))
    return record


@pytest.mark.parametrize("name", ["drive", "sleep", "frame"])
def test_a_run_of_the_program_is_the_same(
    asking: Tool, flexpret: str, tmp_path: Path, name: str
) -> None:
    """A confined hard thread is compared by `check`, unless a thread has a permit."""
    setup = f"examples/{name}.toml"
    record = record_run(flexpret, tmp_path, setup, 200)
    ran = asking("fp_record", record, "--compare", setup, "--cycles", 200)
    lines = ran.stdout.splitlines()
    assert (ran.returncode, ran.stderr) == (0, "")
    assert all(line.startswith("same: T") for line in lines)
    checked = [line for line in lines if line.endswith("by check")]
    assert len(checked) == (2 if name == "drive" else 0)


def test_a_difference_has_its_lines_decoded(asking: Tool, flexpret: str, tmp_path: Path) -> None:
    """A store that T0 doesn't have, and an event of T2 that T3 has."""
    record = record_run(flexpret, tmp_path, "examples/drive.toml", 77)
    text = record.read_text()
    late = re.sub(r"(?m)^24,1,0,", "24,0,0,", text)
    record.write_text(late)
    ran = asking("fp_record", record, "--compare", "examples/drive.toml", "--cycles", 77)
    lines = ran.stdout.splitlines()
    assert (ran.returncode, ran.stderr) == (1, "")
    assert lines[0] == "differs: T0: line 6, cycle 20, of 15 events, by check"
    assert lines[4].split()[:3] == ["16", "00000010", "00012283"]
    assert lines[5].startswith("  defined          20 00000014 0050a023 [20000000]/4=0000002a ")
    assert lines[6].startswith("  recorded         24 00000018 0000a303 x06=0000002a ")
    assert "T1: 18 events, by check" in ran.stdout
    record.write_text(re.sub(r"(?m)^(\d+,1),2,", r"\1,3,", text, count=1))
    ran = asking("fp_record", record, "--compare", "examples/drive.toml", "--cycles", 77)
    assert ran.returncode == 1
    assert "differs: T2: line 1, cycle 1, of 6 events, by run" in ran.stdout
    assert "differs: T3: line 1, cycle 1, of 8 events, by run" in ran.stdout


def test_a_record_that_ends_too_soon_differs(asking: Tool, flexpret: str, tmp_path: Path) -> None:
    record = record_run(flexpret, tmp_path, "examples/drive.toml", 60)
    ran = asking("fp_record", record, "--compare", "examples/drive.toml", "--cycles", 77)
    assert ran.returncode == 1
    assert "  recorded no further event" in ran.stdout


def test_names_and_the_view_are_shown(
    asking: Tool, flexpret: str, tmp_path: Path, monkeypatch: pytest.MonkeyPatch
) -> None:
    labels = tmp_path / "drive.map"
    labels.write_text("# map of drive.s: address, line, labels\n00000014 9 keep\n")
    view = tmp_path / "view"
    row = "        17           170 S     4  0  3  1  2  T4 00000104 ffdff06f jal x0, 0x00000100         -"
    head = "     cycle            ns slot  F  D  E  M  W  turn"
    state = "aaa0" + " 0,-,00000000,00000000" * 8
    view.write_text(
        f'#!/bin/sh\necho "$*" > {tmp_path}/asked\n' f"printf '{head}\\t10\\n{row}\\t{state}\\n'\n"
    )
    view.chmod(0o755)
    record = record_run(flexpret, tmp_path, "examples/drive.toml", 77)
    record.write_text(record.read_text().replace("\n24,1,0,", "\n24,0,0,"))
    words = ["--compare", "examples/drive.toml", "--cycles", 77, "--map", labels, "--view", view]
    ran = asking("fp_record", record, *words)
    assert ran.returncode == 1
    assert "(keep)\n" in ran.stdout
    assert f"  {head}\n  {row}\n" in ran.stdout
    asked = (tmp_path / "asked").read_text()
    assert asked == "turns examples/drive.toml --from 16 --to 26 --state\n"


def test_a_refused_setup_or_image_is_named(asking: Tool, flexpret: str, tmp_path: Path) -> None:
    record = record_run(flexpret, tmp_path, "examples/drive.toml", 77)
    setup = tmp_path / "a.toml"
    text = (EXAMPLES / "drive.toml").read_text()
    setup.write_text(text.replace('mode = "hard"', 'mode = "hart"', 1))
    ran = asking("fp_record", record, "--compare", setup, "--cycles", 77)
    assert ran.returncode == 2 and "'hart'" in ran.stderr
    assert ran.stderr.startswith(f"fp_record: {setup}:") and ran.stderr.count("\n") == 1
    image = tmp_path / "a.fpx"
    image.write_bytes(b"FPX2")
    setup.write_text(text.replace("examples/drive.fpx", str(image)))
    ran = asking("fp_record", record, "--compare", setup, "--cycles", 77)
    assert (ran.returncode, ran.stderr) == (2, "fp_record: refused image 2 Magic 0\n")


# -------------------------------------------------------------------------------------- the core


def test_a_setup_is_loaded_with_its_image() -> None:
    setup = read_valid(EXAMPLES / "drive.toml")
    image = read_image(TOP / setup.image)
    lines = loaded(setup, image).splitlines()
    for line in (
        "version 1 0 0", "period a 0 0", "slots ffffe1e0 0 0", "iregions cccccccc 0 0",
        "dregions ccccc810 0 0", "modes aaa0 0 0", "confined 3 0 0", "permit 0 0 0",
        "entry 1 40 0", "input 0 0 2a", "input 0 32 2b", "word 0 0 200000b7",
    ):  # fmt: skip
        assert line in lines
    assert len([line for line in lines if line.startswith("word ")]) == len(image)
    slots = loaded(read_valid(EXAMPLES / "slots.toml"), {0x2000_0004: 7}).splitlines()
    assert "permit 1 0 0" in slots and "modes fff0 0 0" in slots and "word 1 1 7" in slots


def simulate(*words: object) -> subprocess.CompletedProcess[str]:
    command = [sys.executable, str(TOP / "rtl/simulate"), *map(str, words)]
    return subprocess.run(command, cwd=TOP, capture_output=True, text=True, check=False)


def test_simulate_names_what_it_cannot_use(tmp_path: Path) -> None:
    core = tmp_path / "none"
    ran = simulate("examples/drive.toml", "--cycles", 9, "--core", core)
    assert ran.returncode == 2
    assert ran.stderr == f"simulate: {core} isn't built: call make -C rtl\n"
    setup, text = tmp_path / "a.toml", (EXAMPLES / "drive.toml").read_text()
    setup.write_text(text.replace("period = 10", "period = 0"))
    ran = simulate(setup, "--cycles", 9)
    assert ran.returncode == 2 and ran.stderr.startswith(f"simulate: {setup}:8: period: ")
    setup.write_text(text.replace("examples/drive.fpx", str(setup)))
    ran = simulate(setup, "--cycles", 9)
    assert ran.returncode == 2 and ran.stderr.startswith(f"simulate: {setup} is no image: ")
    ran = simulate("examples/drive.toml", "--cycles", "-1")
    assert ran.returncode == 2 and "'-1' is no number" in ran.stderr


def test_each_fault_is_in_the_core_and_has_its_example() -> None:
    """`faulty` ends where a fault's text isn't once in the core."""
    text = faulty((TOP / "rtl/flexpret.sv").read_text())
    assert len(FAULTS) >= 10
    assert all(f"(fault == {number})" in text for number in range(1, len(FAULTS) + 1))
    shown = (TOP / "rtl/README.md").read_text()
    for fault in FAULTS:
        assert f"| [{fault.example}](../examples/{fault.example}.toml) | {fault.cycles} |" in shown
