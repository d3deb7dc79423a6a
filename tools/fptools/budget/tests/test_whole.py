"""`fp_budget --all`: the answers for all hard threads, and what isn't answered."""
from __future__ import annotations

import json
import re
from pathlib import Path
from xml.etree import ElementTree

import pytest
from fptools.testing.common import TOP, Tool
from fptools.budget.files import Budget, PeriodOf, Result, Verdict
from fptools.files.image import read_image, write_image
from fptools.files.setup import ThreadTable
from fptools.stack.stacks import Stack
from fptools.budget.whole import ThreadAnswer, load_of
from fptools.budget.whole_text import load_text, period_text, table_of
from fptools.budget.tests.whole_programs import LOOP, SOURCES, Whole

TABLE = """\
thread  answer  slots   load  period, cycles  stack, bytes  budgets
T0      holds   1 of 3  2 %   30 of 2000      none          -
T1      soft    0 of 3  -     -               -             -
T2      holds   1 of 3  -     no loop waits   none          -

holds    T0 period of main0 (t0_it.c:5): 30 of 2000 cycles (300 ns); assumes no trap
holds    T0 stack: no stack: sp is never lowered
holds    T2 stack: no stack: sp is never lowered
"""


@pytest.fixture(scope="module")
def whole(flexpret: str, tmp_path_factory: pytest.TempPathFactory) -> Whole:
    made = Whole(tmp_path_factory.mktemp("whole"), flexpret, SOURCES)
    made.change('mode = "hard"(?=\nentry = 0x800)', 'mode = "soft"')
    made.change('"T0", "T1", "T2"', '"T0", "S", "T2"')
    return made


def test_the_answers_for_all_hard_threads(whole: Whole) -> None:
    ran = whole("--all")
    assert (ran.returncode, ran.stdout) == (0, TABLE), ran
    assert "fp_budget: the budgets are none: no budgets.toml is next to the setup" in ran.stderr


def test_the_file_of_budgets_next_to_the_setup(whole: Whole) -> None:
    text = '[[budget]]\nname = "fast"\nthread = 0\nperiod = "main0"\nns = {}\n'
    budgets = whole.folder / "budgets.toml"
    try:
        budgets.write_text(text.format(20000))
        ran = whole("--all")
        assert ran.returncode == 0 and "the budgets are those of budgets.toml" in ran.stderr
        assert "holds    T0 fast: 30 of 2000 cycles" in ran.stdout
        assert "period of main0" not in ran.stdout, "the budget names this loop"
        budgets.write_text(text.format(10000))
        ran = whole("--all")
        assert ran.returncode == 2 and "UNKNOWN  T0 fast: " in ran.stdout
        assert "T0      UNKNOWN " in ran.stdout and "10000 ns" in ran.stdout
        (whole.folder / "other.toml").write_text(text.format(20000).replace("fast", "other"))
        ran = whole("other.toml", "--all")
        assert ran.returncode == 0 and "T0 other: " in ran.stdout and "fast" not in ran.stdout
    finally:
        budgets.unlink()


def test_a_run_counts(whole: Whole) -> None:
    ran = whole("--all", "--runs", 9000)
    assert ran.returncode == 0, ran
    assert re.search(r"; the longest of \d periods takes \d+, no wait is late\n", ran.stdout), ran


def test_json_and_junit(whole: Whole, tmp_path: Path) -> None:
    ran = whole("--all", "--json", "--junit", tmp_path / "all.xml")
    found = json.loads(ran.stdout)
    threads = {it["thread"]: it for it in found["threads"]}
    assert [(it["thread"], it["verdict"], it["slots"], it["frame"]) for it in found["threads"]] == [
        (0, "holds", 1, 3), (1, None, 0, 3), (2, "holds", 1, 3),
    ]  # fmt: skip
    assert threads[0]["load"] == pytest.approx(300 / 20000)
    assert (threads[0]["periods"], threads[2]["periods"]) == (1, 0)
    assert threads[1]["stack"] is None and threads[0]["stack"]["verdict"] == "holds"
    assert [it["name"] for it in found["results"]] == ["period of main0 (t0_it.c:5)"]
    suite = ElementTree.parse(tmp_path / "all.xml").getroot()
    assert [(it.get("classname"), it.get("name")) for it in suite.iter("testcase")] == [
        ("T0", "period of main0 (t0_it.c:5)"), ("T0", "stack"), ("T2", "stack"),
    ]  # fmt: skip
    assert (suite.get("tests"), suite.get("failures"), suite.get("errors")) == ("3", "0", "0")


@pytest.mark.parametrize(
    ("words", "why"),
    [
        (("--all", "--thread", 0), "--all takes no thread, function, period, label"),
        (("--all", "--ns", 20000), "label, --cycles and --ns"),
        (("made.toml", "--thread", 0), "BUDGETS takes no thread, "),
        (("made.toml", "--assume", "no traps"), "--assume isn't of BUDGETS"),
        (("--all", "--elf", "it.elf"), "with --setup the first word is the executable"),
    ],
)
def test_words_that_do_not_go_together(whole: Whole, words: tuple[object, ...], why: str) -> None:
    ran = whole(*words)
    assert ran.returncode == 2 and ran.stdout == "" and why in ran.stderr


def test_all_without_a_setup(tool: Tool) -> None:
    ran = tool("fp_budget", "examples/c/pid.toml", "examples/c/budgets.toml", "--all")
    assert ran.returncode == 2 and "--all, " in ran.stderr and "go with --setup" in ran.stderr


def test_a_file_of_budgets_that_is_not_there(whole: Whole) -> None:
    ran = whole("none.toml", "--all")
    assert ran.returncode == 2 and "none.toml" in ran.stderr and "Traceback" not in ran.stderr


def test_the_report_has_all_threads(whole: Whole, tmp_path: Path) -> None:
    pytest.importorskip("jinja2", reason="jinja2 isn't installed (Debian: python3-jinja2)")
    words = (
        "fp_report",
        "it.toml",
        "--elf",
        "it.elf",
        "--cycles",
        9000,
        "-o",
        tmp_path / "page.html",
    )
    ran = whole.tool(*words, "--all")
    assert ran.returncode == 0, ran
    assert [it.split(":")[0] for it in ran.stdout.splitlines()] == [
        "holds    T0 period of main0 (t0_it.c", "holds    T0 stack", "holds    T2 stack",
    ]  # fmt: skip
    page = (tmp_path / "page.html").read_text()
    text = " ".join(re.sub("<[^>]*>", " ", page).split())
    assert "All hard threads" in text and "of 1 period and budgets, and 2 stacks;" in text
    assert "T0 ✓ holds hard 1 of 3 2 % 30 of 2000 none - T1 – soft 0 of 3" in text
    assert "T2 ✓ holds hard 1 of 3 - no loop waits none -" in text
    ran = whole.tool(*words)
    assert ran.returncode == 2 and "BUDGETS is missing" in ran.stderr


BAD = {
    0: "for (;;) { for (int k = 0; k < 9; k++) FP_PORT = k; next += 40; fp_wait_until(next); }",
    1: "for (;;) { next += 7000; fp_delay_until(next); }",
    2: "for (;;) { next += FP_PORT & 1 ? 4000 : 9000; FP_PORT = sum(FP_PORT);"
    " fp_wait_until(next); }",
    3: "for (;;) { if (FP_PORT & 1) { next += 4000; fp_wait_until(next); }"
    " else { next += 9000; FP_MARK(part_begin); FP_PORT = sum(FP_PORT); FP_MARK(part_end);"
    " fp_wait_until(next); } }",
}


@pytest.fixture(scope="module")
def bad(flexpret: str, tmp_path_factory: pytest.TempPathFactory) -> Whole:
    return Whole(tmp_path_factory.mktemp("bad"), flexpret, BAD, LOOP)


def test_answers_that_do_not_hold(bad: Whole) -> None:
    """A wait that may be late is OVER. One whose distance isn't known has a plain bound."""
    ran = bad("--all")
    lines = ran.stdout.splitlines()
    assert ran.returncode == 2
    rows = [it.split()[1] for it in lines[1:5]]
    assert rows == ["OVER", "UNKNOWN", "bound", "holds"], ran.stdout
    assert any(
        it.startswith("OVER     T0 period of main0") and " of 4 cycles" in it for it in lines
    )
    assert any("T1 period: " in it and "a loop that waits by DU alone" in it for it in lines)
    assert any(
        it.startswith("bound    T2 period of main2") and "doesn't show what lies between" in it
        for it in lines
    )
    assert any("the moments are 4000 or 9000 ns apart" in it for it in lines), ran.stdout


def test_what_an_asleep_thread_and_one_without_a_slot_get(bad: Whole) -> None:
    before = bad.setup
    try:
        bad.change('mode = "hard"(?=\nentry = 0x1800)', 'mode = "hard-asleep"')
        bad.change('"T0", "T1", "T2"', '"T0", "T1", "D"')
        ran = bad("--all")
        assert ran.returncode == 2
        assert "UNKNOWN  T2 period: no slot is the thread's own" in ran.stdout
        assert "UNKNOWN  T3 period of main3" in ran.stdout and "NotHard" in ran.stdout
        bad.change('mode = "hard"(?=\n)', 'mode = "soft"', 0)
        bad.change('mode = "hard-asleep"', 'mode = "soft"', 0)
        ran = bad("--all")
        assert ran.returncode == 2 and ran.stderr.endswith(
            "fp_budget: it.toml: no thread is hard: bounds are for hard threads\n"
        )
    finally:
        bad.change(".*", before.replace("\\", r"\\"))


def test_an_image_of_another_executable(bad: Whole, tmp_path: Path) -> None:
    """Nothing holds, also no stack: the data and names are those of the executable."""
    bad.change('image = ".*?"', f'image = "{tmp_path / "other.fpx"}"')
    try:
        words = read_image(bad.folder / "it.fpx")
        (tmp_path / "other.fpx").write_bytes(write_image({**words, 0: 0x6F}))
        ran = bad("--all")
        assert ran.returncode == 2 and "holds" not in ran.stdout
        assert "UNKNOWN  T0 stack: 0x0 start0: the image isn't made of it.elf" in ran.stdout
    finally:
        bad.change('image = ".*?"', 'image = "it.fpx"')


def test_an_entry_without_code(bad: Whole) -> None:
    before = bad.setup
    try:
        bad.change("entry = 0x800\n", "entry = 0xf00\n")
        ran = bad("--all")
        assert (
            "UNKNOWN  T1 period: 0xf00 " in ran.stdout and "no code is at the entry" in ran.stdout
        )
    finally:
        bad.change(".*", before)


def test_budgets_by_the_executable_alone(bad: Whole) -> None:
    """Loops that have no table in the setup are bounded by the executable. A table of the setup
    that is too small isn't believed."""
    budget = '[[budget]]\nname = "a sum"\nthread = 3\nfrom = "part_begin"\nto = "part_end"\n'
    (bad.folder / "sum.toml").write_text(f"{budget}cycles = 1000\ncalls = true\n")
    for words in ((), ("--all",)):
        ran = bad("sum.toml", *words)
        assert "holds    T3 a sum: " in ran.stdout, ran
    with_elf = bad.tool("fp_budget", "it.toml", "sum.toml", "--elf", "it.elf")
    assert with_elf.returncode == 0 and with_elf.stdout.startswith("holds    T3 a sum: ")
    without = bad.tool("fp_budget", "it.toml", "sum.toml")
    assert without.returncode == 2
    before = bad.setup
    try:
        words = ("--calls", "--from", "part_begin", "--to", "part_end")
        loops = bad.tool("fp_loops", "it.elf", *words).stdout
        few = re.sub(r"bound = 1[12]", "bound = 3", loops)
        assert few != loops
        (bad.folder / "it.toml").write_text(f"{before}\n{few}")
        ran = bad("sum.toml")
        assert ran.returncode == 2 and "the setup's table has 3" in ran.stdout, ran
    finally:
        bad.change(".*", before)


def answer(*results: Result, stack: Stack | None = None) -> ThreadAnswer:
    return ThreadAnswer(ThreadTable(0, "hard", 0, False, False, None, ()), 1, 4, results, stack)


def period(verdict: Verdict, bound: int | None, ns: int | None) -> Result:
    cycles = None if ns is None else ns // 10
    budget = Budget("it", 0, 0, 0, cycles, period=PeriodOf(None, ns, True))
    return Result(budget, verdict, "", bound, None if bound is None else bound * 10)


def test_the_largest_verdict_counts() -> None:
    holds, over = period(Verdict.HOLDS, 10, 200), period(Verdict.OVER, 30, 200)
    unknown = period(Verdict.UNKNOWN, None, None)
    full = Stack(0, Verdict.OVER, "too deep", 80, 40)
    assert (answer(holds).word, answer(holds, over).word) == ("holds", "OVER")
    assert answer(holds, over, unknown).word == "UNKNOWN"
    assert answer(holds, stack=full).word == "OVER"
    assert answer(holds, period(Verdict.HOLDS, 10, None)).word == "bound"
    assert answer().word == "" and answer(unknown).load is None


def test_the_load_is_of_the_tightest_period() -> None:
    several = answer(period(Verdict.HOLDS, 10, 200), period(Verdict.HOLDS, 40, 4000))
    assert several.load == pytest.approx(0.5)
    assert period_text(several) == "10 of 20, 2 loops"
    assert load_of(period(Verdict.HOLDS, 10, None)) is None
    assert [load_text(it) for it in (None, 0.5, 0.001, 1.0, 1.001)] == [
        "-",
        "50 %",
        "1 %",
        "100 %",
        "101 %",
    ]
    assert len(list(table_of([several]))) == 2


def test_shipped_example(flexpret: str) -> None:
    """The handler of pid.elf comes back, so its period is unknown unless no trap is assumed."""
    words = ("fp_budget", "examples/c/pid.elf", "--setup", "examples/c/pid.toml", "--all")
    ran = Tool(TOP, flexpret)(*words)
    assert ran.returncode == 2 and "the budgets are those of examples/c/budgets.toml" in ran.stderr
    assert "no bound counts a trap handler" in ran.stdout
