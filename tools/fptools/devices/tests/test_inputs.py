"""Inputs of a setup from CSV files, by fp_inputs."""
from __future__ import annotations

import subprocess
import tomllib
from pathlib import Path

import pytest
from fptools.testing.common import TOP, Tool

SETUP = TOP / "examples/loop/motor.toml"
FORMS = "write cycle,word or seconds,value"


def made(tool: Tool, folder: Path, rows: str, *options: object, thread: int = 0) -> list[list[int]]:
    """The inputs of the setup that is written."""
    listed = folder / "a.csv"
    listed.write_text(rows)
    ran = tool("fp_inputs", SETUP, listed, "--thread", thread, *options)
    assert (ran.returncode, ran.stderr) == (0, "")
    before, after = tomllib.loads(SETUP.read_text()), tomllib.loads(ran.stdout)
    inputs: list[list[int]] = after["thread"][thread].pop("inputs")
    assert before == after
    return inputs


def refused(tool: Tool, folder: Path, rows: str, *options: object) -> tuple[int, str]:
    """The status and the line of a refusal, without the file's name."""
    listed = folder / "a.csv"
    listed.write_text(rows)
    ran = tool("fp_inputs", SETUP, listed, "--thread", 0, *options)
    assert ran.stdout == "" and ran.stderr.count("\n") == 1
    return ran.returncode, ran.stderr.removeprefix(f"fp_inputs: {listed}:").strip()


def test_cycles_and_words(tool: Tool, tmp_path: Path) -> None:
    rows = "cycle,word\n0,42\n\n50,-1\n51,4294967295\n"
    assert made(tool, tmp_path, rows) == [[0, 42], [50, 2**32 - 1], [51, 2**32 - 1]]
    assert made(tool, tmp_path, rows, "--changes") == [[0, 42], [50, 2**32 - 1]]
    assert made(tool, tmp_path, "cycle,word\n0,0\n", thread=7) == [[0, 0]]


def test_seconds_and_values(tool: Tool, tmp_path: Path) -> None:
    """A value is shown from the first cycle, of 10 ns, that begins at its second or later."""
    rows = "seconds, value\n0,0\n0.000001,1.5\n0.000001001,-0.25\n1e-3,16\n"
    wanted = [[0, 0], [100, 0x18000], [101, 2**32 - 0x4000], [100_000, 0x100000]]
    assert made(tool, tmp_path, rows, "--scale", 65536) == wanted


def test_the_first_input_of_each_some_cycles_stays(tool: Tool, tmp_path: Path) -> None:
    rows = "cycle,word\n" + "".join(f"{cycle},{cycle}\n" for cycle in range(3, 40, 4))
    assert made(tool, tmp_path, rows, "--every", 10) == [[3, 3], [11, 11], [23, 23], [31, 31]]


def test_too_many_inputs_are_refused_with_what_to_do(tool: Tool, tmp_path: Path) -> None:
    rows = "cycle,word\n" + "".join(f"{10 * at},{at // 10}\n" for at in range(10_000))
    wanted = (
        "10000 inputs, of 4096 at most: --changes leaves 999; --every 50 leaves 2000; "
        "tools/fp_plant takes any number from a plant"
    )
    assert refused(tool, tmp_path, rows) == (1, wanted)
    assert len(made(tool, tmp_path, rows, "--changes")) == 999
    assert len(made(tool, tmp_path, rows, "--every", 50)) == 2000


def test_4096_inputs_are_taken(asking: Tool, tmp_path: Path) -> None:
    rows = "cycle,word\n" + "".join(f"{at},{at}\n" for at in range(4096))
    listed, setup = tmp_path / "a.csv", tmp_path / "a.toml"
    listed.write_text(rows)
    assert asking("fp_inputs", SETUP, listed, "--thread", 0, "-o", setup).returncode == 0
    words = [asking.environment["FLEXPRET"], "run", str(setup), "--thread", "0", "--cycles", "64"]
    ran = subprocess.run(words, cwd=TOP, capture_output=True, check=False)
    assert (ran.returncode, ran.stdout.splitlines()[0].split()[0]) == (0, b"0")


@pytest.mark.parametrize(
    ("rows", "line"),
    [
        ("", f"1: the first row is missing: {FORMS}"),
        ("0,1\n", f"1: the first row is '0,1': {FORMS}"),
        ("\nword,cycle\n", f"2: the first row is 'word,cycle': {FORMS}"),
        ("cycle,word\n", "no input: write a row below the first one, for each input"),
        ('cycle,word\n0,"1\n', "2: a quote isn't closed"),
        ('cycle,word\n0,1\n5,"1', "3: a quote isn't closed"),
        ('cycle,word\n0,"1"2\n', "2: ',' expected after '\"'"),
        ("cycle,word\n0,1\n0,2\n", "3: cycle 0 isn't after cycle 0; cycles rise"),
        ("cycle,word\n5,1\n4,2\n", "3: cycle 4 isn't after cycle 5; cycles rise"),
        ("cycle,word\n-1,1\n", "2: cycle -1 is not 0 to 4000000000"),
        ("cycle,word\n4000000001,1\n", "2: cycle 4000000001 is not 0 to 4000000000"),
        (
            "cycle,word\n0,4294967296\n",
            "2: 4294967296 has no word of 32 bits; --scale makes values smaller",
        ),
        (
            "cycle,word\n0,0.5\n",
            "2: 0,0.5 are no integers; a header seconds,value takes others",
        ),
        ("cycle,word\n0\n", "2: 1 fields, of two"),
        ("cycle,word\n0,nan\n", "2: '0,nan' is not two numbers"),
        ("cycle,word\n0,0x10\n", "2: '0,0x10' is not two numbers"),
        ("cycle,word\n0,\n", "2: '0,' is not two numbers"),
        ("cycle,word\n,\n", "2: ',' is not two numbers"),
        ("cycle;word\n0;1\n", f"1: the first row is 'cycle;word': {FORMS}"),
        ("cycle,word\n0,1e999999999\n", "2: '0,1e999999999' has a number that is too large"),
        ("seconds,value\n1e999999,1\n", "2: '1e999999,1' has a number that is too large"),
        pytest.param(
            f"cycle,word\n0,{'5' * 20_000}\n",
            f"2: '0,{'5' * 58}..' has a number that is too large",
            id="20,000 digits",
        ),
        pytest.param(
            f"cycle,word\n0,{'5' * 200_000}\n",
            "2: field larger than field limit (131072)",
            id="200,000 digits",
        ),
    ],
)
def test_a_row_that_is_refused(rows: str, line: str, tool: Tool, tmp_path: Path) -> None:
    assert refused(tool, tmp_path, rows) == (2, line)


def test_files_of_other_systems(tool: Tool, tmp_path: Path) -> None:
    """A byte order mark, carriage returns, quotes, empty rows, and no end of the last line."""
    rows = '\ufeffcycle,word\r\n0,1\r\n\r\n"5", "2"\r\n6 , 1e-0\r\n7,3'
    assert made(tool, tmp_path, rows) == [[0, 1], [5, 2], [6, 1], [7, 3]]
    assert made(tool, tmp_path, "seconds,value\n1e-999999,1e-999999\n") == [[1, 0]]
    listed = tmp_path / "utf16.csv"
    listed.write_text("cycle,word\n0,1\n", encoding="utf-16")
    ran = tool("fp_inputs", SETUP, listed, "--thread", 0)
    said = f"fp_inputs: {listed} isn't UTF-8: invalid start byte\n"
    assert (ran.returncode, ran.stdout, ran.stderr) == (2, "", said)


@pytest.mark.parametrize("scale", ["0", "nan", "1e999999", "x"])
def test_a_scale_that_is_no_factor(scale: str, tool: Tool, tmp_path: Path) -> None:
    ran = tool("fp_inputs", SETUP, tmp_path / "a.csv", "--thread", 0, "--scale", scale)
    assert ran.returncode == 2 and f"'{scale}' is no factor" in ran.stderr


def test_a_setup_that_gets_too_long(tool: Tool, tmp_path: Path) -> None:
    """Three threads with all inputs that a setup takes have more bytes than a setup may have."""
    listed, setup = tmp_path / "a.csv", tmp_path / "a.toml"
    first = 3_999_990_000
    rows = (f"{first + at},{2**32 - 1 - at}\n" for at in range(4096))
    listed.write_text("cycle,word\n" + "".join(rows))
    setup.write_text(SETUP.read_text())
    for thread in (0, 2):
        assert tool("fp_inputs", setup, listed, "--thread", thread, "-o", setup).returncode == 0
    whole = setup.read_text()
    ran = tool("fp_inputs", setup, listed, "--thread", 3, "-o", setup)
    assert ran.returncode == 2 and "bytes, of 262144 at most" in ran.stderr
    assert setup.read_text() == whole


@pytest.mark.parametrize("output", ["/none/x", "/dev/full", "."])
def test_an_output_that_can_not_be_written(output: str, tool: Tool, tmp_path: Path) -> None:
    listed = tmp_path / "a.csv"
    listed.write_text("cycle,word\n0,1\n")
    ran = tool("fp_inputs", SETUP, listed, "--thread", 0, "-o", output)
    assert ran.returncode == 2 and ran.stderr.startswith(f"fp_inputs: {output} can't be written: ")
    assert ran.stderr.count("\n") == 1


def test_inputs_that_are_there_are_replaced(tool: Tool, tmp_path: Path) -> None:
    listed, setup = tmp_path / "a.csv", tmp_path / "it.toml"
    listed.write_text("cycle,word\n0,1\n")
    text = (TOP / "examples/drive.toml").read_text()
    begin = text.index("inputs")
    several = (
        text[:begin]
        + "inputs = [   # these\n  [0, 7],\n\n  [9, 8]]  # and no others"
        + text[text.index("\n", begin) :]
    )
    for given in (text, several, several.replace("\n", "\r\n")):
        setup.write_text(given, newline="")
        ran = tool("fp_inputs", setup, listed, "--thread", 0, "--replace")
        assert (ran.returncode, ran.stderr) == (0, "")
        made, values = tomllib.loads(ran.stdout), tomllib.loads(given)
        values["thread"][0]["inputs"] = [[0, 1]]
        assert made == values and ran.stdout.count("inputs") == given.count("inputs")
    ran = tool("fp_inputs", setup, listed, "--thread", 1, "--replace")
    assert ran.returncode == 0 and "[[0, 1]]" in ran.stdout


@pytest.mark.parametrize(
    ("setup", "thread", "line"),
    [
        ("examples/none.toml", 0, "[Errno 2] No such file or directory: 'examples/none.toml'"),
        (
            "examples/drive.toml",
            0,
            "examples/drive.toml:LINE: thread 0 has inputs: --replace takes them out",
        ),
        (
            "examples/sum.toml",
            7,
            "examples/sum.toml has no table of thread 7: add [[thread]] with id = 7",
        ),
    ],
)
def test_a_setup_that_is_refused(
    setup: str, thread: int, line: str, tool: Tool, tmp_path: Path
) -> None:
    listed = tmp_path / "a.csv"
    listed.write_text("cycle,word\n0,1\n")
    ran = tool("fp_inputs", setup, listed, "--thread", thread)
    if "LINE" in line:
        lines = (TOP / setup).read_text().splitlines()
        (number,) = (at for at, text in enumerate(lines, 1) if text.startswith("inputs"))
        line = line.replace("LINE", str(number))
    assert (ran.returncode, ran.stdout, ran.stderr) == (2, "", f"fp_inputs: {line}\n")
