"""Writes a report as one HTML file, which needs no network and runs no script but its own.

The pictures are inline SVG by jinja2 and a script of the page's own: the script of Debian 12's
python3-plotly has 8.7 MB, more than a page may have, and Vega comes without Vega-Lite, which Altair
needs."""

import hashlib
from collections import defaultdict
from base64 import b64encode
from dataclasses import dataclass
from functools import cached_property
from pathlib import Path

from jinja2 import Environment, FileSystemLoader, StrictUndefined

from fptools.budget.files import Budget, Result, Verdict
from fptools.files.elf import ProgramError
from fptools.report import units
from fptools.report.findings import Finding, Findings, Input
from fptools.report.histogram import Histogram, histogram_of
from fptools.report.picture import Place, Region, Slot, Thread, regions_of, slots_of, threads_of
from fptools.report.promises import CHECKS, PROVED, TESTED
from fptools.report.timeline import KINDS, MOST_WINDOW, Timeline
from fptools.visits.claims import Passes
from fptools.files.labels import names_at
from fptools.visits.observed import Kind, silence_of
from fptools.visits.text import Text, ratio, silence_text
from fptools.budget.reports import without_controls
from fptools.files.trace import CAUSES
from fptools.visits.seen import Rounds
from fptools.budget.whole_text import counted, load_text, period_text, stack_text

TEMPLATES = Path(__file__).parent / "templates"
MOST_SPOTS = 16  # lines of an execution that are listed
SIGNS = {"holds": "✓", "bound": "•", "OVER": "✕", "BROKEN": "✕", "UNKNOWN": "?"}
WORDS = {Verdict.HOLDS: "holds", Verdict.OVER: "over", Verdict.UNKNOWN: "unknown"}


@dataclass(frozen=True)
class Loop:
    """A loop of a section: its bound with its origin, and the rounds in the run."""

    where: str
    bound: str
    by: str
    seen: str


@dataclass(frozen=True)
class Card:
    """A budget as the page shows it. Parts are percent."""

    number: int
    finding: Finding
    period: int

    @property
    def result(self) -> Result:
        return self.finding.result

    @property
    def budget(self) -> Budget:
        return self.result.budget

    @property
    def sign(self) -> str:
        return SIGNS[self.result.word]

    @property
    def scale(self) -> int:
        """The cycles of the whole width of its bars."""
        return max(self.budget.cycles or 0, self.result.bound or 0, self.result.longest or 0, 1)

    def part(self, cycles: int) -> float:
        return round(100 * cycles / self.scale, 3)

    @property
    def slack(self) -> int | None:
        """The cycles of the budget that the bound leaves."""
        return self.result.slack

    @property
    def slack_part(self) -> float:
        return (self.slack or 0) / self.budget.cycles if self.budget.cycles else 0.0

    @property
    def ratio(self) -> float | None:
        """The longest execution without a trap over the bound."""
        seen = self.finding.executions
        return ratio(seen) if seen else None

    @cached_property
    def histogram(self) -> Histogram | None:
        return histogram_of(self.finding.executions) if self.finding.executions else None

    @property
    def section(self) -> str:
        start, end = (
            f"{it:#x}" if isinstance(it, int) else it for it in (self.budget.start, self.budget.end)
        )
        return f"{start} to {end}"

    @property
    def has_lines(self) -> bool:
        """Whether the spots are source lines, and not addresses."""
        return any(not it.place.startswith("0x") for it in self.finding.spots)

    def time(self, cycles: int) -> str:
        return units.time_text(cycles * self.period)

    @property
    def loops(self) -> list[Loop]:
        """The loops of its code, with the most rounds of the run."""
        seen = self.finding.compared.observation
        rounds = {it.table.head: it for it in seen.rounds} if seen else {}
        return [
            Loop(it.where, f"{it.bound:,}", it.by, _rounds_text(rounds.get(it.head)))
            for it in self.result.loops
        ]


def _rounds_text(rounds: Rounds | None) -> str:
    if rounds is None or not rounds.backs.count:
        return "not entered"
    least, most, count = rounds.backs.least, rounds.backs.most, rounds.backs.count
    times = f"{most:,}" if least == most else f"{least:,} to {most:,}"
    return f"{times} time{'s' * (most != 1)}, in {count:,} entr{'y' if count == 1 else 'ies'}"


@dataclass(frozen=True)
class Row:
    """The answers for a thread, as texts. `word` is empty for a thread that isn't asked for."""

    thread: str
    word: str
    mode: str
    slots: str
    load: str
    period: str
    stack: str
    budgets: str


@dataclass(frozen=True)
class Wait:
    """A DU or WU of a run."""

    thread: int
    where: str
    number: int
    overruns: int
    latest: str
    slack: str


@dataclass(frozen=True)
class Trap:
    """Traps of a run with one cause at one address."""

    thread: int
    where: str
    cause: str
    number: int
    first: int


@dataclass(frozen=True)
class Page:
    """The values of the template."""

    title: str
    findings: Findings

    @property
    def period(self) -> int:
        return self.findings.setup.period

    @cached_property
    def cards(self) -> list[Card]:
        return [Card(at, it, self.period) for at, it in enumerate(self.findings.found, 1)]

    @property
    def summary(self) -> list[tuple[Verdict, int, str]]:
        """How many budgets hold, are over and are unknown, those that there are."""
        verdicts = [it.result.verdict for it in self.findings.found]
        verdicts += [it.stack.verdict for it in self.findings.threads if it.stack]
        counts = [(it, verdicts.count(it), WORDS[it]) for it in Verdict]
        return [it for it in counts if it[1]]

    @property
    def answers(self) -> str:
        """How many answers there are."""
        number, stacks = len(self.cards), sum(bool(it.stack) for it in self.findings.threads)
        text = f"{number} budget{'s' * (number != 1)}"
        if not self.findings.threads:
            return text
        periods = f"{number} period{'s' * (number != 1)} and budgets"
        return f"{periods}, and {stacks} stack{'s' * (stacks != 1)}"

    @property
    def rows(self) -> list[Row]:
        """The answers by threads."""
        return [
            Row(
                f"T{it.table.id}",
                it.word,
                it.table.mode,
                f"{it.slots} of {it.frame}",
                load_text(it.load),
                period_text(it),
                stack_text(it.stack),
                counted(it.sections),
            )
            for it in self.findings.threads
        ]

    @property
    def inputs(self) -> list[Input]:
        return self.findings.inputs

    @property
    def timeline(self) -> Timeline:
        return self.findings.timeline

    @property
    def slots(self) -> list[Slot]:
        return slots_of(self.findings.setup)

    @property
    def threads(self) -> list[Thread]:
        return threads_of(self.findings.setup, names_at(self.findings.program))

    @property
    def permits(self) -> list[int]:
        return [it.id for it in self.findings.setup.threads if it.permit]

    @property
    def scratchpads(self) -> list[tuple[str, list[Region]]]:
        setup, image = self.findings.setup, self.findings.image
        return [
            ("instruction scratchpad", regions_of(setup, "i_regions", image, self._places)),
            ("data scratchpad", regions_of(setup, "d_regions", image)),
        ]

    @property
    def _places(self) -> list[Place]:
        """The first words of threads and of sections."""
        names, starts = names_at(self.findings.program), defaultdict[int, list[str]](list)
        for it in self.findings.setup.threads:
            starts[it.entry].append(f"T{it.id}")
        places = [
            Place(at, f"{names.get(at, hex(at))}: start of {', '.join(sorted(own))}")
            for at, own in sorted(starts.items())
        ]
        for card in self.cards:
            try:
                start = card.budget.start
                at = start if isinstance(start, int) else self.findings.program.address(start)
            except ProgramError:
                continue
            places.append(Place(at, card.budget.name))
        return places

    @property
    def waits(self) -> list[Wait]:
        return [
            Wait(
                seen.question.thread or 0,
                self._at(it.pc),
                it.count,
                it.overruns,
                units.time_text(it.late.most) if it.late.count else "–",
                units.time_text(it.slack.least) if it.slack.count else "–",
            )
            for seen in self.findings.observations
            for it in seen.waits
        ]

    @property
    def traps(self) -> list[Trap]:
        return [
            Trap(
                seen.question.thread or 0,
                self._at(it.pc),
                f"{it.cause}, {CAUSES.get(it.cause, 'unknown')}",
                it.count,
                it.first,
            )
            for seen in self.findings.observations
            for it in seen.traps
        ]

    @property
    def claims(self) -> list[tuple[int, Passes]]:
        """The claims of FP_LOOP that the runs passed, each with its thread."""
        return [
            (seen.question.thread or 0, it)
            for seen in self.findings.observations
            for it in seen.claims
        ]

    def _at(self, pc: int) -> str:
        return Text(self.findings.program).at(pc)

    @property
    def remarks(self) -> list[str]:
        """That a run broke a loop's table or a bound, and that an execution didn't end."""
        text = Text(self.findings.program)
        found: list[str] = []
        for it in self.findings.observations:
            found += [text.unknown(it, one) for one in it.doubts]
            # A budget that is over says so itself, and that an execution didn't end is of the run.
            found += [
                text.broken(it, one)
                for one in it.breaks
                if one.kind is not Kind.BUDGET or one.doubt
            ]
            found += [
                f"T{it.question.thread} {one.watched.name}: {silence_text(silent)}"
                for one in it.executions
                if (silent := silence_of(one, it.question.shown_to))
            ]
        return found


def html_of(findings: Findings, title: str) -> bytes:
    """The page. It is the same for the same findings."""
    environment = Environment(
        loader=FileSystemLoader(TEMPLATES),
        autoescape=True,
        trim_blocks=True,
        lstrip_blocks=True,
        undefined=StrictUndefined,
    )
    script, style = (
        (TEMPLATES / name).read_text(encoding="utf-8") for name in ("page.js", "page.css")
    )
    text = environment.get_template("page.html").render(
        page=Page(title, findings),
        script=script,
        script_digest=b64encode(hashlib.sha256(script.encode()).digest()).decode(),
        style=style,
        proved=PROVED,
        checks=CHECKS,
        tested=TESTED,
        kinds=KINDS,
        signs=SIGNS,
        most_spots=MOST_SPOTS,
        most_window=MOST_WINDOW,
        count=units.count_text,
        cycles=units.cycles_text,
        time=units.time_text,
        percent=units.part_text,
    )
    return without_controls(text).encode("utf-8")
