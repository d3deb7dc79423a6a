"""The Makefile of examples/c: another program than pid goes through fp_layout."""
from __future__ import annotations

import shutil
import subprocess
from pathlib import Path

import pytest
from fptools.testing.common import TOOLS, TOP
from fptools.testing.layout_check import Executable, flow
from fptools.testing.layout_shapes import Shape

SHARED = ("Makefile", "flexpret.h", "flexpret.ld", "start.s")
OWN = """\
#include "flexpret.h"

#define READINGS 12
enum state { IDLE, RISING, STEADY, FALLING };
static uint32_t readings[READINGS], next_reading;
static enum state state;
static volatile uint32_t alarms;

__attribute__((noinline)) static uint32_t mean_of(const uint32_t *from, uint32_t count)
{
    uint32_t sum = 0;
    FP_LOOP(reading, READINGS);
    for (uint32_t i = 0; i < count; i++) {
        FP_ROUND(reading);
        sum += from[i];
    }
    return count ? sum / count : 0;
}

static uint32_t spread(void)
{
    uint32_t most = 0;
    FP_LOOP(one, READINGS);
    for (uint32_t i = 0; i < READINGS; i++) {
        FP_ROUND(one);
        FP_LOOP(other, READINGS - 1);
        for (uint32_t j = i + 1; j < READINGS; j++) {
            FP_ROUND(other);
            uint32_t apart = readings[i] > readings[j] ? readings[i] - readings[j] : readings[j] - readings[i];
            if (apart > 5000)
                return apart;
            if (apart > most)
                most = apart;
        }
    }
    return most;
}

static void to_next_state(uint32_t now, uint32_t mean)
{
    switch (state) {
    case IDLE:
        if (now > mean + 8)
            state = RISING;
        break;
    case RISING:
        state = now > mean ? STEADY : FALLING;
        break;
    case STEADY:
        if (now + 8 < mean)
            state = FALLING;
        else if (now > 60000)
            alarms++;
        break;
    default:
        state = IDLE;
    }
}

void main0(void)
{
    uint64_t next = fp_get_time();
    for (;;) {
        FP_MARK(work_begin);
        uint32_t now = FP_PORT;
        readings[next_reading++ % READINGS] = now;
        to_next_state(now, mean_of(readings, next_reading < READINGS ? next_reading : READINGS));
        FP_PORT = (uint32_t)state << 16 | spread();
        next += 100000;
        FP_MARK(work_end);
        fp_wait_until(next);
    }
}
"""


@pytest.fixture
def folder(tmp_path: Path) -> Path:
    """A folder of a program's own, below the repository's top."""
    own = tmp_path / "own"
    own.mkdir()
    for name in SHARED:
        shutil.copy(TOP / "examples/c" / name, own)
    (tmp_path / "tools").symlink_to(TOOLS)
    (own / "t0_own.c").write_text(OWN)
    (own / "t1_count.c").write_text(
        '#include "flexpret.h"\nvoid main1(void) { for (;;) FP_PORT = 1; }\n'
    )
    return own


def make(folder: Path, *words: str) -> subprocess.CompletedProcess[str]:
    for program in ("make", "riscv64-unknown-elf-gcc"):
        if shutil.which(program) is None:
            pytest.skip(f"{program} isn't installed")
    command = ["make", "-C", str(folder), *words]
    return subprocess.run(command, capture_output=True, text=True, check=False)


def built(folder: Path, *words: str) -> subprocess.CompletedProcess[str]:
    return make(folder, "PROGRAM=own", "OBJECTS=start.o t0_own.o t1_count.o", *words)


@pytest.mark.parametrize(
    "words", [(), ("OPTIONS=-O3",), ("OPTIONS=-Os -g",), ("TOOLS=llvm",)], ids=str
)
def test_a_program_of_its_own_has_a_bound(folder: Path, words: tuple[str, ...]) -> None:
    if words == ("TOOLS=llvm",) and not (shutil.which("clang") and shutil.which("ld.lld")):
        pytest.skip("clang or ld.lld isn't installed")
    ran = built(folder, *words)
    assert ran.returncode == 0, ran.stderr
    executable = Executable(folder / "own.elf")
    executable.symbols["main_work"] = 0
    executable.functions["main_work"] = executable.functions["main0"]
    shape = Shape(executable, "work")
    assert shape.faults == [] and shape.refusal() == "" and shape.routines
    words_between = range(shape.begin, shape.end, 4)
    assert "indirect" not in {flow(executable.words[at], at)[0] for at in words_between}
    assert (folder / "t0_own.laid.s").exists() and not (folder / "start.laid.s").exists()
    assert built(folder, "clean", *words).returncode == 0
    assert sorted(it.name for it in folder.iterdir()) == sorted([*SHARED, "t0_own.c", "t1_count.c"])


def test_a_function_that_stays_stops_the_build(folder: Path) -> None:
    (folder / "t0_own.c").write_text(OWN.replace("alarms++;", '__asm__ volatile("wfi");'))
    ran = built(folder)
    assert (
        ran.returncode != 0
        and "t0_own.compiled.s:" in ran.stderr
        and "`wfi` is no instruction" in ran.stderr
    )
    assert not (folder / "own.elf").exists()


def test_marks_that_cross_a_loop_stop_the_build(folder: Path) -> None:
    text = OWN.replace(
        "            if (apart > most)",
        "            FP_MARK(inner_end);\n            if (apart > most)",
    )
    (folder / "t0_own.c").write_text(
        text.replace("    uint32_t most = 0;", "    uint32_t most = 0;\n    FP_MARK(inner_begin);")
    )
    ran = built(folder)
    assert ran.returncode != 0 and "section inner_begin:inner_end crosses a loop" in ran.stderr
    assert "t0_own.c:23: section" in ran.stderr and not (folder / "t0_own.laid.s").exists()


def test_the_compilers_order_can_be_kept(folder: Path) -> None:
    assert built(folder, "LAYOUT=").returncode == 0
    assert not list(folder.glob("*.laid.s"))


def test_the_example_is_what_the_repository_has(tmp_path: Path) -> None:
    shutil.copytree(TOP / "examples/c", tmp_path / "c")
    assert make(tmp_path / "c", "clean").returncode == 0
    assert make(tmp_path / "c").returncode == 0
    version = subprocess.run(
        ["riscv64-unknown-elf-gcc", "-dumpversion"], capture_output=True, text=True, check=True
    )
    if version.stdout.strip() == "12.2.0":
        assert (tmp_path / "c/pid.elf").read_bytes() == (TOP / "examples/c/pid.elf").read_bytes()
    assert not list((tmp_path / "c").glob("*.laid.s"))
