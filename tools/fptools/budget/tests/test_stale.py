"""A build that is stale: the Makefile of examples/c builds it again, and without that fp_budget is UNKNOWN."""
from __future__ import annotations

import os
import shutil
import subprocess
from pathlib import Path

import pytest
from fptools.testing.common import TOOLS, TOP, Tool
from fptools.files.elf import Program
from fptools.files.checksums import NoRecord, checksum, first_changed, read_record, sums_of
from fptools.testing.modelled import program, setup_text

FILTER = """\
#include "flexpret.h"
extern uint32_t arr[64];
static inline uint32_t filter(uint32_t n)
{{
    uint32_t s = 0;
    FP_LOOP(word, {rounds});
    for (uint32_t i = 0; i < (n & {rounds}); i++) {{
        FP_ROUND(word);
        s += arr[i] * n;
    }}
    return s;
}}
"""
MAIN = """\
#include "flexpret.h"
#include "filter.h"
uint32_t arr[64] = { 1, 2, 3 };
void main0(void)
{
    uint64_t next = fp_get_time();
    for (;;) {
        FP_MARK(a_begin);
        FP_PORT = filter(FP_PORT);
        FP_MARK(a_end);
        next += 50000;
        fp_wait_until(next);
    }
}
"""
WORDS = ("PROGRAM=own", "OBJECTS=start.o t0_v.o t1_w.o")
LAYOUT = f"FP_LAYOUT={TOOLS / 'fp_layout'}"
GNU = ("riscv64-unknown-elf-gcc", "riscv64-unknown-elf-objcopy")
LLVM = ("clang", "ld.lld", "llvm-objcopy")
MADE = {"own.elf", "commands.stamp"} | {
    f"{name}.{kind}" for name in ("start", "t0_v", "t1_w") for kind in ("o", "d", "sources")
}


def needs(*programs: str) -> None:
    missing = [it for it in ("make", *programs) if shutil.which(it) is None]
    if missing:
        pytest.skip(f"{missing[0]} isn't installed")


class Build:
    """A program of two threads, one of which has a loop in a header."""

    def __init__(self, folder: Path) -> None:
        needs(*GNU)
        self.folder, self.elf = folder, folder / "own.elf"
        for name in ("Makefile", "flexpret.h", "flexpret.ld", "start.s"):
            shutil.copy(TOP / "examples/c" / name, folder)
        self.write(31)
        (folder / "t0_v.c").write_text(MAIN)
        (folder / "t1_w.c").write_text(
            '#include "flexpret.h"\nvoid main1(void) { for (;;) FP_PORT = 2; }\n'
        )
        self.setup = folder / "own.toml"
        regions = '"T0", "T1", "T2", "T3", "T4", "T5", "T6"'
        text = setup_text(str(folder / "own.fpx")).replace(", ".join(['"readonly"'] * 7), regions)
        self.setup.write_text(text)

    def write(self, rounds: int) -> None:
        (self.folder / "filter.h").write_text(FILTER.format(rounds=rounds))

    def make(self, *words: str, options: str = "OPTIONS=-O2 -g") -> list[str]:
        """The sources that are compiled or assembled."""
        ran = subprocess.run(
            ["make", "-C", str(self.folder), *WORDS, LAYOUT, options, *words],
            capture_output=True,
            text=True,
            check=False,
        )
        assert ran.returncode == 0, ran.stderr
        lines = (line.split() for line in ran.stdout.splitlines() if " -c " in line)
        return sorted({line[-1] for line in lines if line[0] != "rm"})

    def budget(self, tool: Tool, *words: object) -> tuple[int, str]:
        """The status of fp_budget, and its first line."""
        flexpret = program(self.folder)
        image = subprocess.run([flexpret, "elf", self.elf], capture_output=True, check=True).stdout
        (self.folder / "own.fpx").write_bytes(image)
        section = (
            "--from-label",
            "a_begin",
            "--to-label",
            "a_end",
            "--cycles",
            10000,
            "--flexpret",
            flexpret,
        )
        ran = tool("fp_budget", self.elf, "--setup", self.setup, "--thread", 0, *section, *words)
        return ran.returncode, ran.stdout.split("\n")[0]


@pytest.fixture
def build(tmp_path: Path) -> Build:
    return Build(tmp_path)


def test_an_edit_of_a_header_compiles_what_includes_it(build: Build, tool: Tool) -> None:
    """Also where another source is edited too, which makes the executable newer than the header."""
    build.make()
    status, line = build.budget(tool)
    assert (status, line.startswith("holds    T0 a_begin to a_end: ")) == (0, True)
    before = int(line.split(": ")[1].split()[0])
    build.write(7)
    status, line = build.budget(tool)
    text = "filter.h isn't what own.elf was built from, so its lines may be others: build it again by `make`"
    assert (status, text in line) == (2, True)
    source = build.folder / "t1_w.c"
    source.write_text(source.read_text() + "\n")
    assert build.make() == ["t0_v.laid.s", "t1_w.laid.s"]
    status, line = build.budget(tool)
    assert (status, int(line.split(": ")[1].split()[0]) < before) == (0, True)
    assert build.make() == []


def test_an_executable_of_which_an_object_is_older(build: Build, tool: Tool) -> None:
    """The executable is newer than the header, and one of its objects isn't."""
    build.make()
    build.write(7)
    includes = '#include "flexpret.h"\n#include "filter.h"\n'
    (build.folder / "t1_w.c").write_text(
        f"{includes}void main1(void) {{ for (;;) FP_PORT = filter(1); }}\n"
    )
    assert build.make("-o", "t0_v.o", "-o", "filter.h") == ["t1_w.laid.s"]
    record = Program(build.elf).record
    assert record is not None and len(record["filter.h"]) == 2
    status, line = build.budget(tool)
    assert (status, "filter.h isn't what own.elf was built from" in line) == (2, True)


def test_checksums_count_and_not_times(build: Build, tool: Tool) -> None:
    build.make()
    later = build.elf.stat().st_mtime_ns + 10**9
    os.utime(build.folder / "filter.h", ns=(later, later))
    assert build.budget(tool)[0] == 0
    source = build.folder / "t1_w.c"
    source.write_text(source.read_text() + "\n")
    os.utime(source, ns=(0, 0))
    status, line = build.budget(tool)
    assert (status, "t1_w.c isn't what own.elf was built from" in line) == (2, True)
    status, line = build.budget(tool, "--assume", "same sources")
    assert (status, line.startswith("holds ")) == (0, True)
    ran = tool("fp_loops", build.elf, "--from", "a_begin", "--to", "a_end")
    assert (ran.returncode, ran.stderr) == (
        1, "fp_loops: t1_w.c isn't what own.elf was built from, so its lines may be others: build it again by `make`\n",
    )  # fmt: skip


def test_sources_elsewhere(build: Build, tool: Tool, tmp_path: Path) -> None:
    """--src names the folder whose files are compared; what isn't there isn't compared."""
    build.make()
    copies = tmp_path / "copies"
    copies.mkdir()
    for name in ("t0_v.c", "filter.h", "flexpret.h"):
        shutil.copy(build.folder / name, copies)
    assert build.budget(tool, "--src", copies)[0] == 0
    (copies / "filter.h").write_text(FILTER.format(rounds=7))
    status, line = build.budget(tool, "--src", copies)
    assert (status, "filter.h isn't what own.elf was built from" in line) == (2, True)


def test_an_executable_without_checksums_is_compared_by_times(build: Build, tool: Tool) -> None:
    build.make()
    subprocess.run([GNU[1], "--remove-section", ".fp_sources", str(build.elf)], check=True)
    assert Program(build.elf).record is None
    assert build.budget(tool)[0] == 0
    later = build.elf.stat().st_mtime_ns + 10**9
    os.utime(build.folder / "filter.h", ns=(later, later))
    status, line = build.budget(tool)
    assert (status, "filter.h is newer than own.elf" in line) == (2, True)


def test_other_options_and_tools_build_again(build: Build, tmp_path: Path) -> None:
    every = ["start.s", "t0_v.laid.s", "t1_w.laid.s"]
    assert build.make() == every
    assert build.make() == []
    assert build.make(options="OPTIONS=-Os -g") == every
    assert build.make("LAYOUT_OPTIONS=--rotate=4", options="OPTIONS=-Os -g") == every
    assert build.make("LAYOUT=", options="OPTIONS=-Os -g") == ["start.s", "t0_v.c", "t1_w.c"]
    other = tmp_path / "other"
    shutil.copytree(
        TOOLS / "fptools", other / "fptools", ignore=shutil.ignore_patterns("__pycache__")
    )
    shutil.copy(TOOLS / "fp_layout", other)
    named = f"FP_LAYOUT={other / 'fp_layout'}"
    assert build.make(named) == every
    assert build.make(named) == []
    layout = other / "fptools/layout/layout.py"
    layout.write_text(layout.read_text() + "# changed\n")
    assert build.make(named) == every


def test_clean_removes_what_was_made(build: Build) -> None:
    before = {it.name for it in build.folder.iterdir()}
    build.make()
    assert MADE <= {it.name for it in build.folder.iterdir()} - before
    build.make("clean")
    assert {it.name for it in build.folder.iterdir()} == before


@pytest.mark.parametrize("words", [(), ("TOOLS=llvm",)], ids=["gnu", "llvm"])
@pytest.mark.parametrize("more", [(), ("LAYOUT=",)], ids=["laid", "kept"])
def test_each_object_has_its_sources(
    build: Build, words: tuple[str, ...], more: tuple[str, ...]
) -> None:
    """Also where the linker drops what nothing names."""
    needs(*(LLVM if words else ()))
    link = "ld.lld" if words else "riscv64-unknown-elf-ld -m elf32lriscv"
    (build.folder / "inner.s").write_text("        nop\n")
    start = build.folder / "start.s"
    start.write_text(start.read_text() + '        .section .text\n        .include "inner.s"\n')
    for linker in ((), (f"LINK={link} --gc-sections -u start0 -u main0",)):
        build.make(*words, *more, *linker, options="OPTIONS=-O2 -g -ffunction-sections")
        record = Program(build.elf).record
        assert record is not None
        named = {"t0_v.c", "filter.h", "flexpret.h", "start.s", "inner.s"}
        assert named <= record.keys() <= named | {"t1_w.c"}
        assert all(sums == {checksum(build.folder / name)} for name, sums in record.items())
    (build.folder / "inner.s").write_text("        nop\n        nop\n")
    assert build.make(*words, *more, *linker, options="OPTIONS=-O2 -g -ffunction-sections") == [
        "start.s"
    ]


def test_a_header_that_is_gone_stops_nothing(build: Build) -> None:
    build.make()
    (build.folder / "filter.h").rename(build.folder / "other.h")
    (build.folder / "t0_v.c").write_text(MAIN.replace("filter.h", "other.h"))
    assert build.make() == ["t0_v.laid.s"]


def test_checksums_of_names() -> None:
    sums = ["a" * 64, "b" * 64, "c" * 64]
    data = "".join(
        f"{it}  {name}\n" for it, name in zip(sums, ("x.c", "io/x.h", "../x.h"))
    ).encode()
    record = read_record(data + b"\0" + f"{sums[1]}  x.c\n".encode())
    assert record == {"x.c": {sums[0], sums[1]}, "io/x.h": {sums[1]}, "../x.h": {sums[2]}}
    assert sums_of(record, Path("/a/b/../io/x.h")) == {sums[1]}
    assert sums_of(record, Path("/a/./x.h")) == {sums[2]}
    assert sums_of(record, Path("/a/y.h")) == set()
    assert first_changed(record, {}) == "x.c"
    with pytest.raises(NoRecord):
        read_record(b"no checksum  x.c\n")
