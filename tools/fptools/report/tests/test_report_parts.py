"""The parts of fp_report's page: cycles by source line, histograms, numbers with units."""
from __future__ import annotations

import re
from pathlib import Path
from typing import Any

import pytest
from hypothesis import given, settings
from hypothesis import strategies as st

from fptools.testing.modelled import HOLDS, held, program

pytest.importorskip("jinja2", reason="jinja2 isn't installed (Debian: python3-jinja2)")

from fptools.isa.disassembly import Disassembler
from fptools.files.elf import Program
from fptools.report.histogram import MOST_BINS, histogram_of
from fptools.report.issues import Span, read_issues, spots_of
from fptools.report.units import cycles_text, part_text, time_text
from fptools.program.calls import Flexpret
from fptools.files.setup import read_setup
from fptools.view.events import Columns
from fptools.files.sources import Sources
from fptools.visits.seen import Executions, Watched


@pytest.mark.parametrize("name", ["taps16", "callee", "moved", "shapes"])
def test_lines_add_up_to_the_execution(name: str, tmp_path: Path) -> None:
    """The cycles of all lines are those of any span, and the issues those of the trace."""
    setup_path, _ = held(name, tmp_path)
    setup, flexpret = read_setup(setup_path), Flexpret(str(program(tmp_path)))
    columns = Columns(Program(HOLDS / f"{name}.elf"), Disassembler(None), Sources(HOLDS))
    spans = [Span(start, start + length) for start in (40, 400, 404) for length in (4, 60, 900)]
    for span, issues in zip(spans, read_issues(flexpret, setup, 0, spans, "test")):
        spots = spots_of(issues, span, columns)
        assert sum(it.issues for it in spots) == len(issues)
        assert all(span.start <= it.event.cycle < span.end for it in issues)
        # A span of the test may begin and end between two issues.
        before = issues[0].begin - span.start if issues else span.cycles
        assert sum(it.cycles for it in spots) + before == span.cycles
        assert [it.cycles for it in spots] == sorted((it.cycles for it in spots), reverse=True)


def tally(
    numbers: dict[int, int], bound: int | None = None, budget: int | None = None
) -> Executions:
    seen = Executions(Watched("it", 0, 4, bound=bound, budget=budget))
    for cycles, times in numbers.items():
        seen.whole.add(cycles, 0, times)
    return seen


@st.composite
def drawn_numbers(draw: st.DrawFn) -> dict[int, int]:
    """How often executions took some numbers of cycles."""
    low = draw(st.sampled_from([0, 8, 344, 10**6]))
    spread = draw(st.sampled_from([1, 5, 40, 41, 1000, 10**7]))
    cycles = st.integers(low, low + spread - 1)
    return draw(st.dictionaries(cycles, st.integers(1, 1000), min_size=1, max_size=60))


@settings(max_examples=40)
@given(drawn_numbers(), st.data())
def test_a_histogram_has_each_execution_once(numbers: dict[int, int], data: st.DataObject) -> None:
    most = max(numbers)
    seen = tally(
        numbers,
        data.draw(st.sampled_from([None, most, most + 3, 9 * most + 90])),
        data.draw(st.sampled_from([None, most // 2, most + 50])),
    )
    for cycles in data.draw(st.permutations(sorted(numbers)))[:3]:
        seen.interrupted.add(cycles + data.draw(st.integers(0, 4)), 0)
    found = histogram_of(seen)
    assert found is not None
    counted = sum(int(it.text.split(": ")[1].split(" ")[0].replace(",", "")) for it in found.bars)
    assert counted == sum(numbers.values()) + seen.interrupted.count
    assert len({it.x for it in found.bars}) <= MOST_BINS
    for bar in found.bars:
        assert 0 <= bar.x and bar.x + bar.width <= 100.001 and bar.height > 0 and bar.y > -2
    assert all(0 <= it.x <= 100 for it in (*found.marks, *found.ticks)) and found.ticks
    limits = {it for it in (seen.watched.bound, seen.watched.budget) if it is not None}
    assert {it.cycles for it in (*found.marks, *found.beyond)} == limits
    columns = {round(bar.x, 3) for bar in found.bars}
    for cycles in numbers:
        assert any(low <= cycles <= high for low, high in map(range_of, found.bars)), (
            cycles,
            columns,
        )


def range_of(bar: Any) -> tuple[int, int]:
    """The cycles that a bar's text names."""
    numbers = [
        int(it.replace(",", "")) for it in re.findall(r"[\d,]+", bar.text.split(" cycles")[0])
    ]
    return numbers[0], numbers[-1]


def test_without_executions_there_is_no_histogram() -> None:
    assert histogram_of(tally({})) is None


@pytest.mark.parametrize(
    "ns, text",
    [
        (0, "0 ns"),
        (999, "999 ns"),
        (1000, "1 µs"),
        (3520, "3.52 µs"),
        (1_234_567, "1.235 ms"),
        (4 * 10**9, "4 s"),
    ],
)
def test_times_have_their_unit(ns: int, text: str) -> None:
    assert time_text(ns) == text


def test_other_numbers_have_their_unit() -> None:
    assert (cycles_text(1), cycles_text(12345), part_text(0.1234)) == (
        "1 cycle",
        "12,345 cycles",
        "12.3 %",
    )
