"""Listings, maps, images as sources, and addresses by names."""
from __future__ import annotations

import os
import subprocess
from pathlib import Path

from hypothesis import given, settings
from hypothesis import strategies as st

import pytest
from fptools.testing.common import TOP, Tool
from fptools.asm.source import disassembled, read_source, text_of
from fptools.testing.modelled import assembled, program

from model.images import Image
from model.instructions import decode, encode

# GNU as makes the executable of big.s.
SOURCES = sorted(it for it in TOP.glob("examples/*.s") if it.stem != "big")
IMAGES = sorted(it for it in TOP.glob("examples/**/*.fpx") if it.stem != "big")

TWO_WORDS = """# a comment
here:
there:  li   t0, 0x12345
        .space 8
        .org 0x20000010
data:   .word 1, there + 4, -1
"""


def words_of(image: Image) -> dict[int, int]:
    return {
        at + k: int.from_bytes(data[k : k + 4], "little")
        for at, data in image.segments
        for k in range(0, len(data), 4)
    }


def test_a_listing(tool: Tool, tmp_path: Path) -> None:
    source, image = tmp_path / "it.s", tmp_path / "it.fpx"
    source.write_text(TWO_WORDS)
    image.write_bytes(assembled(TWO_WORDS).written())
    ran = tool("fp_asm", source, image, "--listing", "-")
    assert (ran.returncode, ran.stderr) == (0, "")
    assert ran.stdout.splitlines() == [
        "    1                    # a comment",
        "    2 00000000           here:",
        "    3 00000000 000122b7  there:  li   t0, 0x12345",
        "    3 00000004 34528293",
        "    4 00000008 00000000          .space 8",
        "    4 0000000c 00000000",
        "    5                            .org 0x20000010",
        "    6 20000010 00000001  data:   .word 1, there + 4, -1",
        "    6 20000014 00000004",
        "    6 20000018 ffffffff",
        "",
        "00000000 here",
        "00000000 there",
        "20000010 data",
    ]


def test_a_map_gives_labels_and_lines(tool: Tool, tmp_path: Path) -> None:
    source, image, names = tmp_path / "it.s", tmp_path / "it.fpx", tmp_path / "maps" / "it.map"
    names.parent.mkdir()
    source.write_text(TWO_WORDS)
    image.write_bytes(assembled(TWO_WORDS).written())
    assert tool("fp_asm", source, image, "--map", names).returncode == 0
    assert names.read_text().splitlines() == [
        "# map of ../it.s: address, line, labels", "00000000 2 here", "00000000 3 there", "00000008 4", "20000010 6 data",
    ]  # fmt: skip
    ran = tool("fp_addresses", "--map", names, "there+4", "data", "0x10", "12")
    assert (ran.returncode, ran.stdout.split()) == (
        0,
        ["0x00000004", "0x20000010", "0x00000010", "0x0000000c"],
    )
    ran = tool("fp_addresses", "--map", names, "nowhere")
    assert (ran.returncode, ran.stderr) == (
        2,
        f"fp_addresses: nowhere is no symbol of code in {names}\n",
    )


def test_files_are_left_where_the_source_changed(tool: Tool, tmp_path: Path) -> None:
    source, image, listing = tmp_path / "it.s", tmp_path / "it.fpx", tmp_path / "it.lst"
    source.write_text("        nop\n")
    image.write_bytes(assembled("        ret\n").written())
    listing.write_text("before")
    ran = tool("fp_asm", source, image, "--listing", listing)
    assert (ran.returncode, listing.read_text()) == (2, "before")
    assert ran.stderr == f"fp_asm: {image} has other words than {source}: make it again\n"
    source.write_text("        nopp\n")
    ran = tool("fp_asm", source, image, "--listing", listing)
    assert (ran.returncode, ran.stderr) == (2, f"fp_asm: {source}:1: UnknownName\n")
    assert sorted(it.name for it in tmp_path.iterdir()) == ["it.fpx", "it.lst", "it.s"]


def test_what_no_map_and_no_image_is(tool: Tool, tmp_path: Path) -> None:
    ran = tool("fp_addresses", "--map", "README.md", "x")
    assert (ran.returncode, ran.stderr) == (
        2,
        "fp_addresses: README.md is no map: fp_asm writes one by --map\n",
    )
    broken = tmp_path / "it.map"
    broken.write_text("# map of it.s: address, line, labels\n00000000 x y\n")
    ran = tool("fp_addresses", "--map", broken, "x")
    assert (ran.returncode, ran.stderr) == (
        2,
        f"fp_addresses: {broken}:2: no address, line and labels: '00000000 x y'\n",
    )
    ran = tool("fp_disasm", "README.md")
    assert ran.returncode == 2 and "is no image" in ran.stderr
    ran = tool("fp_disasm", "none.fpx")
    assert ran.returncode == 2 and "No such file" in ran.stderr
    ran = tool("fp_addresses", "--map", "x", "--elf", "y", "z")
    assert (ran.returncode, ran.stderr) == (
        2,
        "fp_addresses: --elf and --map: names are of one of them\n",
    )


@pytest.mark.parametrize("path", SOURCES, ids=lambda path: str(path.name))
def test_the_words_of_a_source_are_those_of_its_image(path: Path) -> None:
    assert read_source(path).words == words_of(assembled(path.read_text()))


@pytest.mark.parametrize("path", IMAGES, ids=lambda path: str(path.name))
def test_an_image_as_a_source_is_that_image(tool: Tool, path: Path) -> None:
    ran = tool("fp_disasm", path)
    assert (ran.returncode, ran.stderr) == (0, "")
    assert assembled(ran.stdout).written() == path.read_bytes()


def test_names_in_a_source_of_an_image(tool: Tool) -> None:
    ran = tool("fp_disasm", "examples/c/pid.fpx", "--elf", "examples/c/pid.elf")
    assert assembled(ran.stdout).written() == (TOP / "examples/c/pid.fpx").read_bytes()
    assert "\nstep_begin:\n" in ran.stdout and "wu x11, x15" in ran.stdout


def test_names_of_another_executable_are_refused(tool: Tool) -> None:
    other = "tools/fptools/testing/calls.elf"
    ran = tool("fp_disasm", "examples/c/pid.fpx", "--elf", other)
    assert (ran.returncode, ran.stdout) == (2, "")
    assert f"fp_disasm: examples/c/pid.fpx isn't made of {other}: other words at 0x0" in ran.stderr


def test_an_executable_in_place_of_an_image_is_told(tool: Tool) -> None:
    ran = tool("fp_disasm", "examples/c/pid.elf")
    assert (ran.returncode, ran.stdout) == (2, "")
    said = "examples/c/pid.elf is an executable: `flexpret elf` makes an image of it"
    assert ran.stderr == f"fp_disasm: {said}\n"


HALVES = st.integers(0, 0xFFFF)
OPCODES = st.sampled_from((0x37, 0x17, 0x6F, 0x67, 0x63, 0x03, 0x23, 0x13, 0x33, 0x0F, 0x73, 0x0B))
FIXED = st.sampled_from((0, 0x0FF0000F, 0x0000100F))


@st.composite
def any_words(draw: st.DrawFn) -> int:
    """Each word as often as any other."""
    return draw(HALVES) << 16 | draw(HALVES)


@st.composite
def instructions(draw: st.DrawFn) -> int:
    """A word with an opcode of the core; funct7 is 0 in half of them."""
    return draw(any_words()) & draw(st.sampled_from((~0x7F, 0x01FFFF80))) | draw(OPCODES)


WORDS = st.one_of(any_words(), instructions(), instructions(), FIXED)


@st.composite
def drawn(draw: st.DrawFn) -> dict[int, int]:
    """Words of code and data: instructions with other fields, and any words. A tenth is missing."""
    places = [*range(0, 400, 4), *range(0x2000_0000, 0x2000_0100, 4)]
    return {at: draw(WORDS) for at in places if draw(st.integers(0, 9)) < 9}


@settings(max_examples=12)
@given(drawn())
def test_drawn_words_come_back(words: dict[int, int]) -> None:
    names = {at: f"name.{at}" for at in words if at % 12 == 0} | {
        4: "$odd",
        8: "twice",
        16: "twice",
    }
    starts = [at for at in sorted(words) if at - 4 not in words]
    words = {
        at: bits for at, bits in words.items() if at < (starts[16] if len(starts) > 16 else 1 << 32)
    }
    assert words_of(assembled("\n".join(disassembled(words, names)))) == words


@settings(max_examples=600)
@given(st.one_of(any_words(), instructions()))
def test_texts_are_those_of_the_assembler(bits: int) -> None:
    ins = decode(bits)
    if ins.kind != "Illegal":
        assert encode(ins) == bits
        assert words_of(assembled(f".org 0x2000\n{text_of(0x2000, bits)}\n")) == {0x2000: bits}


def test_routines_of_a_section(tool: Tool, tmp_path: Path) -> None:
    listed = tmp_path / "routines"
    elf = "tools/fptools/testing/calls.elf"
    ran = tool("fp_addresses", "--elf", elf, "--routines", listed, "0", "8")
    assert ran.returncode == 0
    assert all(len(line) == 17 for line in listed.read_text().splitlines())
    ran = tool("fp_addresses", "--elf", elf, "--routines", listed, "0")
    assert (ran.returncode, ran.stderr) == (
        2,
        "fp_addresses: --routines needs --elf, and the two addresses of a section\n",
    )


def test_sections_by_labels_of_a_map(tool: Tool, tmp_path: Path) -> None:
    """fp_visits takes the labels of a map, and shows them."""
    names = tmp_path / "sum.map"
    assert tool("fp_asm", "examples/sum.s", "examples/sum.fpx", "--map", names).returncode == 0
    words = (
        "examples/sum.trace",
        "--setup",
        "examples/sum.toml",
        "--map",
        names,
        "--section",
        "loop:sum+0x18",
    )
    ran = tool("fp_visits", *words, "--flexpret", program(tmp_path))
    assert ran.returncode == 0, ran.stderr
    assert "loop:sum+0x18" in ran.stdout and "0x24 to 0x34 sum" in ran.stdout


def test_a_map_is_compared_with_the_image(tool: Tool, tmp_path: Path) -> None:
    """A map of another source is refused. If the source is gone or has changed, this is reported."""
    names = {it: tmp_path / f"{it}.map" for it in ("sum", "drive")}
    for name, path in names.items():
        files = f"examples/{name}.s", f"examples/{name}.fpx"
        assert tool("fp_asm", *files, "--map", path).returncode == 0
    words = ("--setup", "examples/sum.toml")
    ran = tool("fp_addresses", *words, "--map", names["sum"], "loop")
    assert (ran.returncode, ran.stderr) == (0, "")
    text = f"{names['drive']} is the map of "
    for asked in (
        ("fp_addresses", *words, "loop"),
        ("fp_visits", "examples/sum.trace", *words, "--section", "0:8", "--flexpret", "/bin/true"),
        ("fp_trace", "examples/sum.trace", *words),
        ("fp_disasm", "examples/sum.fpx"),
    ):
        ran = tool(*asked, "--map", names["drive"])
        assert (ran.returncode, ran.stdout) == (2, ""), asked
        assert text in ran.stderr and "has other words" in ran.stderr, ran.stderr
    source, own = tmp_path / "own.s", tmp_path / "own.map"
    source.write_bytes((TOP / "examples/sum.s").read_bytes())
    assert tool("fp_asm", source, "examples/sum.fpx", "--map", own).returncode == 0
    for text, why in (("nop\n", "has changed since the map was written"), ("nopp\n", ":1: UnknownName"), ("", "No such file")):  # fmt: skip
        source.write_text(text)
        if not text:
            source.unlink()
        ran = tool("fp_addresses", *words, "--map", own, "loop")
        assert ran.returncode == 0 and "can't be compared: " in ran.stderr and why in ran.stderr
    source.write_bytes((TOP / "examples/sum.s").read_bytes())
    own.write_text(own.read_text().replace("loop", "pool"))
    ran = tool("fp_addresses", *words, "--map", own, "0")
    assert ran.returncode == 2 and f"{own} isn't the map of {source}" in ran.stderr


def test_a_reader_that_stops_early_is_no_fault() -> None:
    ran = subprocess.run(
        "tools/fp_disasm examples/c/pid.fpx | head -1",
        shell=True, cwd=TOP, capture_output=True, text=True, check=False,
    )  # fmt: skip
    assert ran.stderr == ""


def test_names_of_another_executable(tool: Tool, tmp_path: Path) -> None:
    elf, other = "examples/c/pid.elf", "tools/fptools/testing/holds/kept.elf"
    setup = ("--setup", "examples/c/pid.toml")
    ran = tool("fp_addresses", "--elf", elf, *setup, "step_begin", "step_end")
    assert (ran.returncode, ran.stdout) == (0, "0x000000b4\n0x000001a4\n")
    ran = tool("fp_addresses", "--elf", other, *setup, "work_begin")
    text = (
        f"fp_addresses: the setup's image isn't made of {other}: other words at 0x14 start0+0x14\n"
    )
    assert (ran.returncode, ran.stdout, ran.stderr) == (2, "", text)
    assert (
        tool(
            "fp_addresses", "--elf", other, "--setup", tmp_path / "none.toml", "work_begin"
        ).returncode
        == 0
    )


def test_a_source_that_is_newer_than_its_map(tool: Tool, tmp_path: Path) -> None:
    source, names = tmp_path / "sum.s", tmp_path / "sum.map"
    source.write_bytes((TOP / "examples/sum.s").read_bytes())
    assert tool("fp_asm", source, "examples/sum.fpx", "--map", names).returncode == 0
    made = names.stat().st_mtime_ns
    for later, said in (
        (0, ""),
        (1, "fp_addresses: sum.s is newer than sum.map: its labels may be elsewhere\n"),
    ):
        os.utime(source, ns=(made + later, made + later))
        ran = tool("fp_addresses", "--map", names, "loop")
        assert (ran.returncode, ran.stdout, ran.stderr) == (0, "0x00000010\n", said)


@pytest.mark.parametrize("name", ["fp_addresses", "fp_asm", "fp_disasm", "fp_refusal"])
def test_each_argument_is_described(tool: Tool, name: str) -> None:
    """A description is behind an argument, or in the next line."""
    told = tool(name, "--help").stdout.partition("positional arguments:")[2].splitlines()
    arguments = [at for at, line in enumerate(told) if line.startswith("  ") and line[2] != " "]
    is_bare = [
        "  " not in told[at].strip() and not "".join(told[at + 1 : at + 2]).startswith(" " * 10)
        for at in arguments
    ]
    assert arguments and not any(is_bare)
