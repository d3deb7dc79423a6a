"""Claims of FP_LOOP against runs: what fp_visits, fp_budget --runs and fp_report say of them."""
from __future__ import annotations

import json
import shutil
import subprocess
from collections.abc import Sequence
from dataclasses import dataclass
from pathlib import Path

import pytest
from fptools.testing.common import TOP, Tool
from fptools.layout.layout import Options, lay_out
from fptools.layout.assembly import Assembly

C = TOP / "examples/c"
GCC = "riscv64-unknown-elf-gcc -march=rv32im_zicsr -mabi=ilp32 -ffreestanding -w".split()
LD = "riscv64-unknown-elf-ld -m elf32lriscv -n -e 0 -T flexpret.ld -o own.elf".split()
REGIONS = ["T0", "T1", "T2", "T3", "T4", "T5", "T6"]
HEAD = '#include "flexpret.h"\n#define APART __attribute__((noinline)) static\n'
LOOP = """
static volatile uint32_t sum;
void main0(void)
{
    for (;;) {
        FP_MARK(step_begin);
        uint32_t n = FP_PORT & 15;
        FP_LOOP(tap, 8);
        for (uint32_t tap = 0; tap < n; tap++) {
            FP_ROUND(tap);
            sum += tap;
        }
        FP_MARK(step_end);
        FP_PORT = n;
    }
}
"""
"""Whose loop is executed as often as the port shows."""


@dataclass
class Case:
    """An executable of thread 0 in a folder, with its setup."""

    asking: Tool
    flexpret: str
    folder: Path

    def build(self, texts: Sequence[str], *options: str, is_direct: bool = False) -> None:
        """Compiles sources of one name, each in a folder of its own."""
        shutil.copy(C / "flexpret.ld", self.folder)
        (self.folder / "start.s").write_text(
            (C / "start.s").read_text().replace("start_thread 1", "")
        )
        objects = ["start.o"]
        self.run([*GCC, "-c", "-o", "start.o", "start.s"])
        for number, text in enumerate(texts):
            own = self.folder / str(number)
            own.mkdir(exist_ok=True)
            (own / "x.c").write_text(HEAD + text)
            self._compile(own, options, f"t0_{number}.o", number if is_direct else None)
            objects.append(f"t0_{number}.o")
        self.run([*LD, *objects])
        image = subprocess.run(
            [self.flexpret, "elf", "own.elf"], cwd=self.folder, capture_output=True, check=True
        )
        (self.folder / "own.fpx").write_bytes(image.stdout)

    def _compile(self, own: Path, options: Sequence[str], out: str, unit: int | None) -> None:
        command = [*GCC, *options, "-I", str(C), "x.c"]
        if unit is not None:
            self.run(
                [*command, f"-DFP_FLOW_DIRECT={unit}", "-c", "-o", str(self.folder / out)], own
            )
            return
        self.run([*command, "-S", "-o", "x.s"], own)
        (own / "x.s").write_text(lay_out(Assembly((own / "x.s").read_text()), Options()).text)
        self.run([*GCC, "-c", "-o", str(self.folder / out), "x.s"], own)

    def run(self, command: Sequence[str], folder: Path | None = None) -> None:
        if shutil.which(command[0]) is None:
            pytest.skip(f"{command[0]} isn't installed")
        ran = subprocess.run(
            command, cwd=folder or self.folder, capture_output=True, text=True, check=False
        )
        assert ran.returncode == 0, ran.stderr

    def set_up(self, inputs: str = "[[0, 8]]") -> Path:
        setup = self.folder / "own.toml"
        setup.write_text(
            f"period = 10\nimage = {str(self.folder / 'own.fpx')!r}\n"
            f"slots = {['T0', 'S', 'S', 'S'] + ['D'] * 4}\n"
            f"i_regions = {[*REGIONS, 'readonly']}\nd_regions = {[*REGIONS, 'shared']}\n"
            "[[thread]]\nid = 0\nmode = 'hard'\nentry = 0\nconfined = true\n"
            f"inputs = {inputs}\n"
        )
        return setup

    def visits(
        self, inputs: str = "[[0, 8]]", cycles: int = 12000, *more: object
    ) -> tuple[int, str]:
        """The status of fp_visits, and what it writes."""
        words = ("--setup", self.set_up(inputs), "--cycles", cycles, "--thread", 0)
        ran = self.asking("fp_visits", *words, "--elf", self.folder / "own.elf", *more)
        return ran.returncode, ran.stdout + ran.stderr


@pytest.fixture
def case(asking: Tool, flexpret: str, tmp_path: Path) -> Case:
    return Case(asking, flexpret, tmp_path)


LEVELS = pytest.mark.parametrize("level", ["-O0", "-O2", "-Os"])


@LEVELS
def test_the_passes_of_a_claim(case: Case, level: str) -> None:
    case.build([LOOP], level)
    status, text = case.visits("[[0, 3], [2000, 7], [4000, 2]]")
    assert (status, "\nx.c:10 tap: claimed 8, seen 7\n" in text, "CLAIM" in text) == (
        0,
        True,
        False,
    )
    status, text = case.visits("[[0, 3], [2000, 12], [4000, 2]]")
    assert (status, "\nx.c:10 tap: claimed 8, seen 12\n" in text) == (1, True)
    assert "CLAIM   T0 x.c:10 tap: claimed 8, seen 12: it was broken in cycle 2" in text


def test_where_a_run_broke_a_claim(case: Case) -> None:
    case.build([LOOP], "-O2")
    status, text = case.visits("[[0, 3], [2000, 12], [4000, 2]]", 12000, "--json")
    (thread,) = json.loads(text)["threads"]
    (claim,) = thread["claims"]
    (broken,) = thread["breaks"]
    assert (status, claim["file"], claim["line"], claim["name"]) == (1, "x.c", 10, "tap")
    assert (claim["claimed"], claim["seen"], broken["kind"], broken["seen"]) == (8, 12, "claim", 12)
    assert 2000 < claim["broken_at"] == broken["cycle"] < claim["seen_at"] < 4000
    assert case.visits("[[0, 3], [2000, 12], [4000, 2]]", 2000)[0] == 0


def test_a_budget_with_a_broken_claim(case: Case) -> None:
    case.build([LOOP], "-O2", "-g")
    labels = ("--from-label", "step_begin", "--to-label", "step_end", "--runs", 12000)
    ask = (
        "fp_budget",
        case.folder / "own.elf",
        "--setup",
        case.set_up("[[0, 3], [2000, 12]]"),
        "--thread",
        0,
    )
    ran = case.asking(*ask, *labels)
    assert ran.returncode == 1
    assert "BROKEN   T0 step_begin to step_end: x.c:10 tap: claimed 8, seen 12" in ran.stdout
    assert "the run broke the claim in cycle 2" in ran.stdout
    ran = case.asking(*ask, *labels, "--json")
    assert json.loads(ran.stdout)["results"][0]["verdict"] == "broken"


def test_a_broken_claim_behind_a_call_by_pointer_of_a_section(case: Case) -> None:
    """The section has no bound, and the claim isn't in it."""
    text = """
APART uint32_t sum_of(uint32_t n)
{
    uint32_t sum = 0;
    FP_LOOP(tap, 8);
    for (uint32_t i = 0; i < n; i++) { FP_ROUND(tap); sum += i * n; __asm__ volatile(""); }
    return sum;
}
static uint32_t (*volatile p)(uint32_t);
void main0(void)
{
    p = sum_of;
    for (;;) {
        FP_MARK(step_begin);
        FP_PORT = p(FP_PORT);
        FP_MARK(step_end);
    }
}
"""
    case.build([text], "-O2", "-g")
    broken = "BROKEN   T0 step_begin to step_end"
    for inputs, status, says in (
        ("[[0, 3], [2000, 9]]", 1, f"{broken}: x.c:7 tap: claimed 8, seen 9"),
        ("[[0, 3], [2000, 8]]", 2, "UNKNOWN  T0 step_begin to step_end: "),
    ):
        setup = case.set_up(inputs)
        ask = ("fp_budget", case.folder / "own.elf", "--setup", setup, "--thread", 0)
        labels = ("--from-label", "step_begin", "--to-label", "step_end", "--runs", 6000)
        ran = case.asking(*ask, *labels)
        assert (ran.returncode, says in ran.stdout) == (status, True), ran.stdout


PERIOD = """
static volatile uint32_t sum;
void main0(void)
{
    uint64_t next = fp_get_time();
    for (;;) {
        uint32_t n = FP_PORT, s = 0;
        if (n > 20) {
            for (uint32_t i = 0; i < 30; i++) sum += i;
        } else {
            FP_LOOP(tap, 8);
            for (uint32_t i = 0; i < n; i++) { FP_ROUND(tap); s += i * n; __asm__ volatile(""); }
        }
        FP_PORT = s;
        next += 20000;
        fp_wait_until(next);
    }
}
"""
"""A loop that waits, whose bound is that of the way without the claim."""


def test_a_period_with_a_broken_claim(case: Case) -> None:
    """The run stays below the bound, which takes the claim for granted."""
    case.build([PERIOD], "-Os", "-g")
    budgets = case.folder / "budgets.toml"
    budgets.write_text('[[budget]]\nname = "it"\nthread = 0\nperiod = "main0"\nns = 20000\n')
    elf, broken = case.folder / "own.elf", "x.c:13 tap: claimed 8, seen 9"
    for inputs, status, says in (
        ("[[0, 8]]", 0, "holds    T0 period of main0"),
        ("[[0, 3], [4000, 9]]", 1, f"BROKEN   T0 period of main0: {broken}"),
    ):
        setup = case.set_up(inputs)
        ask = ("fp_budget", elf, "--setup", setup, "--thread", 0, "--period", "--ns", 20000)
        ran = case.asking(*ask, "--function", "main0", "--runs", 9000)
        assert (ran.returncode, says in ran.stdout) == (status, True), ran.stdout
    words = ("--setup", setup, "--budgets", budgets, "--elf", elf, "--cycles", 9000)
    ran = case.asking("fp_visits", *words)
    assert (ran.returncode, broken in ran.stdout) == (1, True), ran.stdout


def test_claims_of_units_of_one_name_are_told(case: Case) -> None:
    """They can't be told apart, so no run is compared with them."""
    one, other = LOOP, LOOP.replace("main0", "other").replace("step_", "other_")
    case.build([one, other], "-Os", is_direct=True)
    elf = case.folder / "own.elf"
    status, text = case.visits("[[0, 9]]", 4000)
    assert (status, "isn't compared" in text) == (1, False)
    elf.write_bytes(elf.read_bytes().replace(b"\x001:x.c", b"\x000:x.c"))
    status, text = case.visits("[[0, 9]]", 4000)
    assert status == 0
    assert "x.c:10 tap isn't compared with the run: 2 units are named 0:x.c" in text


def test_a_report_has_the_claims(case: Case) -> None:
    case.build([LOOP], "-O2", "-g")
    budgets, page = case.folder / "budgets.toml", case.folder / "page.html"
    budgets.write_text(
        '[[budget]]\nname = "it"\nthread = 0\nfrom = "step_begin"\nto = "step_end"\ncycles = 900\n'
    )
    ask = (
        "fp_report",
        case.set_up("[[0, 3], [2000, 12]]"),
        budgets,
        "--elf",
        case.folder / "own.elf",
    )
    ran = case.asking(*ask, "-o", page, "--cycles", 4000, "--src", case.folder / "0")
    assert (ran.returncode, "x.c:10 tap: claimed 8, seen 12" in ran.stdout) == (1, True)
    assert (
        "x.c:10 tap</code></td>" in page.read_text() and "CLAIM   T0 x.c:10 tap" in page.read_text()
    )


@LEVELS
def test_a_mark_behind_a_call_by_pointer(case: Case, level: str) -> None:
    """Its FP_ROUND is passed after the callee returns, and not by the jump that leaves the call
    out."""
    text = """
static uint32_t (*volatile p)(uint32_t);
static volatile uint32_t v = 4, n = 12;
APART uint32_t g(uint32_t x) { return x + 1; }
void main0(void)
{
    uint32_t m = n, i = 0;
    p = g;
    FP_LOOP(a, 8);
    do {
        if (v & 1) goto back;
        p(i);
        FP_ROUND(a);
    back:
        i++;
        FP_PORT = i;
    } while (i < m);
}
"""
    case.build([text], level)
    status, out = case.visits()
    assert (status, "x.c:11 a: claimed 8, seen 12\n" in out) == (1, True)


@LEVELS
def test_a_mark_behind_a_call_that_is_left_out(case: Case, level: str) -> None:
    text = """
static volatile uint32_t v = 1;
APART void g(void) { FP_PORT = v; }
void main0(void)
{
    FP_LOOP(a, 4);
    for (uint32_t i = 0; i < 12; i++) {
        if (i & v) goto back;
        if (i == 2 || i == 8) { g(); FP_ROUND(a); }
    back:
        FP_PORT = i;
    }
}
"""
    case.build([text], level)
    status, out = case.visits()
    assert (status, "x.c:8 a: claimed 4, seen 2\n" in out) == (0, True)


OUTER = """
void inner(void);
static volatile uint32_t v;
void main0(void)
{
    for (;;) {
    FP_LOOP(k, 4);
    for (int i = 0; i < 4; i++) { inner(); FP_ROUND(k); v += i; }
    }
}
"""
INNER = """
volatile uint32_t w, m = 6;
/* the same line */

void inner(void)
{
    FP_LOOP(k, 4);
    for (uint32_t i = 0; i < 4; i++) { FP_ROUND(k); w += i; }
}
"""


@pytest.mark.parametrize("is_direct", [False, True], ids=["laid", "direct"])
def test_two_files_of_one_name(case: Case, is_direct: bool) -> None:
    case.build([OUTER, INNER], "-O1", is_direct=is_direct)
    status, text = case.visits()
    assert (status, text.count("x.c:9 k: claimed 4, seen ")) == (0, 2)
    assert "x.c:9 k: claimed 4, seen 4\n" in text


HANDLER = """
static volatile uint32_t sum, later;
__attribute__((interrupt("machine"), aligned(4))) static void on_trap(void)
{
    later = (later + 30) & 511;
    fp_exception_on_expire(fp_get_time() + 9000 + later);
}
"""


@LEVELS
def test_an_expiry_that_comes_back_is_no_second_pass(case: Case, level: str) -> None:
    """The loop is interrupted at each of its words, once and again."""
    begin = "fp_write_csr(mtvec, (uint32_t)on_trap); fp_exception_on_expire(fp_get_time() + 9000);"
    loop = LOOP.replace("static volatile uint32_t sum;", "").replace(
        "{\n    for", f"{{ {begin}\n    for", 1
    )
    case.build([HANDLER + loop], level)
    status, text = case.visits(cycles=60000)
    assert (status, "tap: claimed 8, seen 8\n" in text) == (0, True)
    assert "24 expiry" in text


def test_a_load_that_traps_and_is_left_out(case: Case) -> None:
    """The handler goes on behind the load: FP_ROUND is passed once a round."""
    text = """
static volatile uint32_t sum;
__attribute__((interrupt("machine"), aligned(4))) static void on_trap(void)
{
    fp_write_csr(mepc, fp_read_csr(mepc) + 4);
}
void main0(void)
{
    fp_write_csr(mtvec, (uint32_t)on_trap);
    for (;;) {
        FP_LOOP(i, 5);
        for (uint32_t i = 0; i < 5; i++) {
            __asm__ volatile("lw a5, 0(%0)" :: "r"(0x30000000) : "a5");
            FP_ROUND(i);
            sum += i;
        }
    }
}
"""
    case.build([text], "-O2")
    status, out = case.visits()
    assert (status, "i: claimed 5, seen 5\n" in out, "5 load access" in out) == (0, True, True)


def test_an_image_of_another_executable(case: Case) -> None:
    case.build([LOOP], "-O2")
    image = (case.folder / "own.fpx").read_bytes()
    case.build([LOOP.replace("sum += tap", "sum -= tap")], "-O2")
    (case.folder / "own.fpx").write_bytes(image)
    assert "claims of FP_LOOP" not in case.visits()[1]
