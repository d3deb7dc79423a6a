"""A run in which the thread traps and doesn't come back, or has no execution, isn't one in which a budget holds."""
from __future__ import annotations

import shutil
import subprocess
from pathlib import Path

import pytest
from fptools.testing.common import TOP, Tool
from fptools.testing.modelled import Made, make, program, setup_text

# From the fourth step on: what a section does that crashes, with its handler.
STEPS = """
        la   t0, {handler}
        csrw mtvec, t0
        li   s1, 0x40000000
        li   s3, 0
loop:   addi s3, s3, 1
begin:  lw   t1, 0(s1)
        li   s0, 0x20000000
        addi t2, s3, -4
        bnez t2, go_on
        {inside}
go_on:  lw   t2, 0(s0)
end:    nop
        {behind}
        j    loop
        .org 0x100
stopped: j   stopped
        .org 0x140
again:  j    loop
        .org 0x180
blinks: sw   t1, 0(s1)
        nop
        j    blinks
        .org 0x1c0
back:   li   t5, {delay}
h:      addi t5, t5, -1
        bnez t5, h
        csrr t6, mepc
        addi t6, t6, 4
        csrw mepc, t6
        mret
"""
INSIDE, BEHIND = "addi s0, s0, 1", "addi t2, s3, -4\n        bnez t2, loop\n        lw t2, 1(s0)"
TRAP = "trap 4 misaligned load in cycle"


def made(
    folder: Path,
    handler: str = "stopped",
    inside: str = "nop",
    behind: str = "nop",
    cycles: int = 4000,
    delay: int = 9,
) -> Made:
    source = STEPS.format(handler=handler, inside=inside, behind=behind, delay=delay)
    return make(folder, source, cycles)


def visits(tool: Tool, it: Made, most: int | None = 400) -> tuple[int, list[str]]:
    """The status of fp_visits for the section, and its lines."""
    words: list[object] = [it.trace, "--setup", it.setup, "--flexpret", program(it.folder)]
    begin, end = it.labels["begin"], it.labels["end"]
    if most is None:
        words += ["--section", f"it={begin}:{end}"]
    else:
        budgets = it.folder / "budgets.toml"
        table = (
            f'[[budget]]\nname = "it"\nthread = 0\nfrom = {begin}\nto = {end}\ncycles = {most}\n'
        )
        budgets.write_text(table)
        words += ["--budgets", budgets]
    ran = tool("fp_visits", *words)
    return ran.returncode, ran.stdout.splitlines()


def test_a_healthy_run_that_the_end_cuts(tool: Tool, tmp_path: Path) -> None:
    """Wherever the run ends, the last execution is no fault."""
    for cycles in range(404, 452, 8):
        status, lines = visits(tool, made(tmp_path, cycles=cycles))
        assert (status, lines[0].startswith("T0: ")) == (0, True), cycles


@pytest.mark.parametrize("handler", ["stopped", "blinks"])
def test_a_trap_that_does_not_come_back(tool: Tool, tmp_path: Path, handler: str) -> None:
    it = made(tmp_path, handler, INSIDE)
    status, lines = visits(tool, it, 400)
    start = lines[0].split("from cycle ")[1].split(";")[0]
    assert status == 1
    assert (
        lines[0].startswith("OVER    T0 it: ")
        and f"the execution from cycle {start} didn't end: {TRAP}" in lines[0]
    )
    assert lines[0].endswith(f" at {it.labels['go_on']:#x}")
    for most in (400000, None):
        status, lines = visits(tool, it, most)
        assert status == 2
        assert lines[0].startswith(
            f"UNKNOWN T0 it: the execution from cycle {start} didn't end: {TRAP}"
        )


def test_a_trap_from_which_the_section_begins_again(tool: Tool, tmp_path: Path) -> None:
    status, lines = visits(tool, made(tmp_path, "again", INSIDE))
    assert status == 2
    assert (
        lines[0].startswith("UNKNOWN T0 it: the execution from cycle ")
        and f"didn't end: {TRAP}" in lines[0]
    )


def test_a_trap_that_comes_back(tool: Tool, tmp_path: Path) -> None:
    """The execution ends late, and counts with the handler."""
    it = made(tmp_path, "back", INSIDE)
    assert visits(tool, it, 400)[0] == 0
    status, lines = visits(tool, it, 100)
    assert (status, lines[-1].startswith("OVER    T0 it: ")) == (1, True)


def test_a_run_that_ends_in_a_handler(tool: Tool, tmp_path: Path) -> None:
    """Where none came back before nothing shows that it does; where one took as long, it does."""
    it = made(tmp_path, "back", INSIDE, cycles=400, delay=200)
    status, lines = visits(tool, it)
    assert (status, f"didn't end: {TRAP}" in lines[0]) == (2, True)
    always = "addi s0, s0, 1\n        addi s3, x0, 3"
    it = made(tmp_path, "back", always, cycles=4000, delay=20)
    status, lines = visits(tool, it)
    assert status == 0 and "with a trap between begin and end" in "".join(lines)


@pytest.mark.parametrize("handler", ["stopped", "blinks"])
def test_a_trap_behind_the_section(tool: Tool, tmp_path: Path, handler: str) -> None:
    """No execution went wrong, but none begins any more."""
    it = made(tmp_path, handler, behind=BEHIND)
    for most in (400, None):
        status, lines = visits(tool, it, most)
        assert status == 2
        text = "UNKNOWN T0 it: no execution since the thread trapped, and it didn't come back: "
        assert lines[0].startswith(f"{text}{TRAP}")
    assert visits(tool, made(tmp_path, "back", behind=BEHIND))[0] == 0


def test_no_execution(tool: Tool, tmp_path: Path) -> None:
    it = made(tmp_path, cycles=20)
    assert visits(tool, it)[1][0] == "UNKNOWN T0 it: no execution in these cycles"
    assert visits(tool, it)[0] == 2
    assert visits(tool, it, None)[0] == 0
    status, lines = visits(tool, made(tmp_path, cycles=44))
    assert (
        status,
        "UNKNOWN T0 it: no execution ended in these cycles: one began in cycle " in lines[0],
    ) == (2, True)


# From here on executables of C.

HEAD = """\
#include "flexpret.h"
volatile uint32_t sink; uint32_t arr[64] = { 3, 1, 4 };
"""
MAIN = """
void main0(void)
{
    uint64_t next = fp_get_time();
    for (;;) {
        FP_MARK(a_begin);
        FP_PORT = step(FP_PORT);
        FP_MARK(a_end);
        next += 5000;
        fp_wait_until(next);
    }
}
"""
LOADS_BEYOND = """
__attribute__((noinline)) static uint32_t step(uint32_t n)
{
    static uint32_t count;
    if (++count == 4)
        n = *(volatile uint32_t *)0x2000f000;
    return n;
}
"""
STORES_BEYOND = """
__attribute__((noinline)) static void put(uint32_t *p, uint32_t n)
{
    for (uint32_t i = 0; i < 8; i++)
        p[i] = n;
}
__attribute__((noinline)) static uint32_t step(uint32_t n)
{
    uint32_t a[4];
    put(a, n);
    return a[n & 3];
}
"""


class Case:
    """A program in C, in whose step something goes wrong."""

    def __init__(self, tool: Tool, folder: Path, step: str) -> None:
        if shutil.which("riscv64-unknown-elf-gcc") is None or shutil.which("make") is None:
            pytest.skip("gcc for RISC-V or make isn't installed")
        self.tool, self.folder = tool, folder
        for name in ("Makefile", "flexpret.h", "flexpret.ld"):
            shutil.copy(TOP / "examples/c" / name, folder)
        start = (TOP / "examples/c/start.s").read_text()
        (folder / "start.s").write_text(start[: start.index("start_thread 1")])
        (folder / "t0_it.c").write_text(f"{HEAD}{step}{MAIN}")
        made_by = [
            "make",
            "-s",
            "-C",
            str(folder),
            "PROGRAM=it",
            "OBJECTS=start.o t0_it.o",
            "OPTIONS=-O2 -g",
        ]
        subprocess.run([*made_by, f"FP_LAYOUT={TOP / 'tools/fp_layout'}"], check=True)
        self.elf, self.flexpret = folder / "it.elf", program(folder)
        image = subprocess.run(
            [self.flexpret, "elf", self.elf], capture_output=True, check=True
        ).stdout
        (folder / "it.fpx").write_bytes(image)
        self.setup = folder / "it.toml"
        more = setup_text(str(folder / "it.fpx"), "T0 S S S D D D D", inputs="[[0, 7]]")
        self.setup.write_text(more.replace('"readonly", "readonly"', '"T0", "readonly"', 1))

    def budget(self, most: int, cycles: int = 9000) -> tuple[int, str]:
        """The status of fp_budget with a run, and its first line."""
        words = ("--thread", 0, "--from-label", "a_begin", "--to-label", "a_end", "--cycles", most)
        ran = self.tool(
            "fp_budget",
            self.elf,
            "--setup",
            self.setup,
            *words,
            "--runs",
            cycles,
            "--flexpret",
            self.flexpret,
        )
        return ran.returncode, ran.stdout.splitlines()[0] if ran.stdout else ran.stderr

    def report(self, most: int) -> tuple[int, str, str]:
        """The status of fp_report, its line, and the page up to the budgets."""
        budgets, page = self.folder / "budgets.toml", self.folder / "report.html"
        budgets.write_text(
            f'[[budget]]\nname = "it"\nthread = 0\nfrom = "a_begin"\nto = "a_end"\ncycles = {most}\ncalls = true\n'
        )
        words = ("--elf", self.elf, "--cycles", 9000, "-o", page, "--flexpret", self.flexpret)
        ran = self.tool("fp_report", self.setup, budgets, *words)
        return ran.returncode, ran.stdout, page.read_text().split('<section id="budgets">')[0]


@pytest.mark.parametrize(
    ("step", "trap"),
    [
        (LOADS_BEYOND, "trap 5 load access in cycle "),
        (STORES_BEYOND, "trap 0 misaligned jump in cycle "),
    ],
    ids=["loads", "stores"],
)
def test_a_step_that_crashes(tool: Tool, tmp_path: Path, step: str, trap: str) -> None:
    case = Case(tool, tmp_path, step)
    status, line = case.budget(1000)
    assert (
        status,
        line.startswith("OVER     T0 a_begin to a_end: an execution that didn't end takes "),
    ) == (1, True)
    assert f"didn't end: {trap}" in line and " step+0x" in line
    status, line = case.budget(100000)
    assert (status, line.startswith("UNKNOWN  T0 a_begin to a_end: the execution from cycle ")) == (
        2,
        True,
    )
    assert f"didn't end: {trap}" in line and " step+0x" in line


def test_a_report_of_a_step_that_crashes(tool: Tool, tmp_path: Path) -> None:
    pytest.importorskip("jinja2", reason="jinja2 isn't installed")
    case = Case(tool, tmp_path, LOADS_BEYOND)
    for most, status, word in ((100000, 2, "unknown"), (1000, 1, "over")):
        ended, text, head = case.report(most)
        assert ended == status and text.startswith(f"{word.upper():<8} T0 it: ")
        assert f"1 {word}</span>" in head and "holds" not in head.split("<header>")[1]
        assert "didn&#39;t end: trap 5 load access in cycle " in head and " step+0x" in head


STOPS = {
    "an endless loop": "on_stop: j on_stop",
    "a DU": "li t5, -1\n        du t5, t5",
}


@pytest.mark.parametrize("stop", STOPS)
def test_a_thread_that_stops_between_two_executions(tool: Tool, tmp_path: Path, stop: str) -> None:
    """No trap comes and no execution is late, so the budget holds; the first line says it."""
    behind = f"addi t2, s3, -4\n        bnez t2, goes\n        {STOPS[stop]}\ngoes:   nop"
    it = made(tmp_path, "stopped", behind=behind)
    budgets = tmp_path / "budgets.toml"
    begin, end = it.labels["begin"], it.labels["end"]
    budgets.write_text(
        f'[[budget]]\nname = "it"\nthread = 0\nfrom = {begin}\nto = {end}\ncycles = 400\n'
    )
    words = ("fp_budget", it.setup, budgets, "--flexpret", program(tmp_path), "--runs")
    ran = tool(*words, 4000)
    said = ran.stdout.partition("; the longest of 4 executions takes ")[2]
    assert ran.returncode == 0 and "; none began in its last 3" in said, ran
    ran = tool(*words, 200)
    assert ran.returncode == 0 and "none began" not in ran.stdout, "the run ends soon behind it"
    ran = tool(
        "fp_visits",
        "--setup",
        it.setup,
        "--thread",
        0,
        "--cycles",
        4000,
        *words[3:5],
        "--section",
        f"it={begin}:{end}",
    )
    assert ran.returncode == 0 and "\n    none began in its last 3" in ran.stdout, ran
