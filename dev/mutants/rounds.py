"""Many changes of a crate in one check. A check proves each function separately, with the contracts of the others, and reports
the result for each. So a round has one change of each function. A change without a verdict in a round, as one of a constant, and
one that seems proved, is checked afterwards as the only change."""
import threading
import time
from collections import deque
from collections.abc import Iterator
from dataclasses import dataclass, field
from functools import cached_property

from dev.mutants.changes import Change
from dev.mutants.checking import ROUNDS, Bench, Check, Verdict, is_error, stale_of
from dev.mutants.drawing import Drawn
from dev.crates.source import Body, Source

MOST = 40
"""The most changes of a check."""


@dataclass(frozen=True)
class Outcome:
    """The verdict on a change, the number of others in its check, and the answers that were removed for it."""

    drawn: Drawn
    verdict: Verdict
    said: str
    removed: list[str]
    seconds: float
    beside: int


@dataclass(frozen=True)
class Place:
    """A function in its file, and the names that a check has for it and for the closures in it."""

    file: str
    begin: int
    end: int
    symbols: tuple[str, ...]

    def is_in_proofs(self, file: str) -> bool:
        """Whether a proof file, named relative to its crate, is of this function."""
        folders = ("/".join(["proofs", *symbol.split("::")[1:], ""]) for symbol in self.symbols)
        return file.startswith(tuple(folders))


class Places:
    """The functions of a crate's files by their places."""

    def __init__(self, crate: str, symbols: list[str]) -> None:
        self.crate, self.symbols = crate, symbols
        self.of_file: dict[str, list[Place]] = {}

    def place_of(self, drawn: Drawn) -> Place | None:
        """The function of a change, if a check reports the result for this function separately."""
        if drawn.file not in self.of_file:
            self.of_file[drawn.file] = list(self.places(drawn.file, Source(drawn.text)))
        at = drawn.change.edits[0][0]
        found = [place for place in self.of_file[drawn.file] if place.begin <= at < place.end]
        return found[0] if found else None

    def places(self, file: str, source: Source) -> Iterator[Place]:
        for body in source.bodies:
            symbol = self.symbol_of(file, source, body) if source.is_function(body) else None
            if symbol is not None:
                begin, end = source.tokens[body.begin].start, source.tokens[body.last].end
                yield Place(file, begin, end, (symbol, *self.closures_in(source, body)))

    def symbol_of(self, file: str, source: Source, body: Body) -> str | None:
        """The name of a function: below its file, or below its type in another file for a method."""
        name = "::".join(filter(None, (source.owner(body), body.name)))
        parts = file.removeprefix(f"crates/{self.crate}/src/").removesuffix(".rt").split("/")
        own = "::".join([self.crate, *(part for part in parts if part != "lib"), name])
        if own in self.symbols:
            return own
        others = [
            symbol
            for symbol in self.symbols
            if symbol.endswith(f"::{name}") and "::fn::" not in symbol
        ]
        return others[0] if len(others) == 1 and "::" in name else None

    def closures_in(self, source: Source, body: Body) -> list[str]:
        name = "::".join(filter(None, (source.owner(body), body.name)))
        return [symbol for symbol in self.symbols if f"::fn::{name}::" in symbol]


@dataclass
class Trial:
    """A change that is being tried, and the former texts of the proof files that were changed for it."""

    drawn: Drawn
    place: Place
    removed: list[str] = field(default_factory=list)
    before: dict[str, str] = field(default_factory=dict)
    tries: int = 0
    seconds: float = 0.0

    def ended(self, verdict: Verdict, said: str, beside: int) -> Outcome:
        return Outcome(self.drawn, verdict, said, self.removed, round(self.seconds, 1), beside)


@dataclass(frozen=True)
class Judged:
    """The result of a check for a function: None if it has no verdict."""

    verdict: Verdict | None
    said: str = ""
    stale: tuple[tuple[str, int], ...] = ()


class Rounds:
    """The rounds over the changes of a crate."""

    def __init__(
        self,
        bench: Bench,
        crate: str,
        symbols: list[str],
        stop: threading.Event,
    ) -> None:
        self.bench, self.crate, self.stop = bench, crate, stop
        self.places = Places(crate, symbols)
        self.waiting: dict[tuple[str, ...], deque[Trial]] = {}
        self.alone: list[Drawn] = []

    def outcomes(self, todo: list[Drawn]) -> Iterator[Outcome]:
        """Tries changes: first those of functions, in rounds, then each of the rest as the only change."""
        others: list[Drawn] = []
        for drawn in todo:
            place = self.places.place_of(drawn)
            if place is None:
                others.append(drawn)
            else:
                self.waiting.setdefault(place.symbols, deque()).append(Trial(drawn, place))
        while (queues := self.queues()) and not self.stop.is_set():
            yield from self.round(queues)
        for queue in self.waiting.values():
            for trial in queue:
                self.put_back(trial)
        if not any(self.waiting.values()):
            self.alone += others
        while self.alone and not self.stop.is_set():
            yield self.tried_alone(self.alone.pop(0))

    def queues(self) -> list[deque[Trial]]:
        """The functions of the next round: those with the most waiting changes come first."""
        return sorted(filter(None, self.waiting.values()), key=len, reverse=True)[:MOST]

    def tried_alone(self, drawn: Drawn) -> Outcome:
        began = time.monotonic()
        verdict, said, removed = self.bench.try_change(
            self.crate, drawn.file, drawn.change.applied(drawn.text)
        )
        return Outcome(drawn, verdict, said, removed, round(time.monotonic() - began, 1), 0)

    def round(self, queues: list[deque[Trial]]) -> Iterator[Outcome]:
        """Judges the first waiting change of each of these functions."""
        for outcome in self.judged([queue[0] for queue in queues]):
            trial = self.waiting[self.symbols_of(outcome.drawn)].popleft()
            self.put_back(trial)
            if outcome.verdict is Verdict.UNKNOWN:
                self.alone.append(outcome.drawn)
            else:
                yield outcome

    def symbols_of(self, drawn: Drawn) -> tuple[str, ...]:
        place = self.places.place_of(drawn)
        assert place
        return place.symbols

    def judged(self, trials: list[Trial]) -> Iterator[Outcome]:
        """The outcomes of a check of these changes, and of more checks if it has none. A change with UNKNOWN is to be checked as
        the only one. Changes that don't compile are replaced by the next waiting ones of their functions. A trial whose answers
        were removed has no outcome yet."""
        if not trials:
            return
        check, texts = self.checked(trials)
        if check.functions and check.status in (0, 1, 3):
            for trial in trials:
                yield from self.judged_by(check, trial, texts, len(trials) - 1)
            return
        wrong = (
            [trial for trial in trials if self.errors_in(check, trial, texts)]
            if check.is_unread()
            else []
        )
        for trial in wrong:
            said = self.errors_in(check, trial, texts)[0]
            yield trial.ended(Verdict.NO_SOURCE, said, len(trials) - 1)
        rest = [trial for trial in trials if trial not in wrong]
        if wrong:
            queues = [self.waiting[trial.place.symbols] for trial in wrong]
            yield from self.judged(rest + [queue[0] for queue in queues if queue])
        elif len(rest) == 1:
            yield rest[0].ended(Verdict.UNKNOWN, "", 0)
        else:
            for half in (rest[: len(rest) // 2], rest[len(rest) // 2 :]):
                yield from self.judged(half)

    def checked(self, trials: list[Trial]) -> tuple[Check, dict[str, "Composed"]]:
        """Checks the crate with all these changes, and puts the sources back."""
        texts: dict[str, Composed] = {}
        for trial in trials:
            texts.setdefault(trial.drawn.file, Composed(trial.drawn.text)).changes.append(
                trial.drawn.change
            )
        began = time.monotonic()
        try:
            for file, composed in texts.items():
                (self.bench.folder / file).write_text(composed.text)
            check = self.bench.check(self.crate, "--jobs", "1")
        finally:
            for file, composed in texts.items():
                (self.bench.folder / file).write_text(composed.before)
        for trial in trials:
            trial.seconds += (time.monotonic() - began) / len(trials)
        return check, texts

    def judged_by(
        self, check: Check, trial: Trial, texts: dict[str, "Composed"], beside: int
    ) -> Iterator[Outcome]:
        judged = self.judgement(check, trial, texts)
        if judged.stale and trial.tries < ROUNDS:
            dropped = self.bench.drop_answers(self.crate, list(judged.stale), trial.before)
            trial.removed += dropped
            trial.tries += 1
            if dropped:
                return
        if judged.verdict is None:
            yield trial.ended(Verdict.UNKNOWN, judged.said, beside)
        else:
            yield trial.ended(judged.verdict, judged.said, beside)

    def judgement(self, check: Check, trial: Trial, texts: dict[str, "Composed"]) -> Judged:
        """The verdict of a check on a change, by the lines about its function and its function's proofs."""
        said = [
            check.functions.get(symbol, "nothing")
            for symbol in trial.place.symbols
            if symbol in check.functions
        ]
        failed = [line for line in said if line.startswith(("not proved", "no proof"))]
        if not failed or any(line.startswith("could not tell") for line in said):
            return Judged(None)
        told = [
            match
            for match in check.places
            if self.is_of(match["file"], int(match["line"]), trial, texts)
        ]
        told = [match for match in told if is_error(match)] or told
        goals = [line for line in failed if line.startswith("no proof: expected answers")]
        verdict = Verdict.REFUSED_WITHOUT if trial.removed else Verdict.REFUSED
        if told and (stale := stale_of(told)):
            return Judged(verdict, told[0][0][:300], tuple(stale))
        if goals or told:
            return Judged(verdict, (goals or [told[0][0]])[0][:300])
        return Judged(None, failed[0][:300])

    def is_of(self, file: str, line: int, trial: Trial, texts: dict[str, "Composed"]) -> bool:
        """Whether a place, named relative to the crate, is in a change's function or in its proofs."""
        if file.startswith("proofs/"):
            return trial.place.is_in_proofs(file)
        whole = f"crates/{self.crate}/{file}"
        return whole == trial.drawn.file and line in texts[whole].lines_of(trial.place)

    def errors_in(self, check: Check, trial: Trial, texts: dict[str, "Composed"]) -> list[str]:
        """The front end's errors at places in a change's function."""
        return [
            match[0][:300]
            for match in check.places
            if "error" in match["said"]
            and self.is_of(match["file"], int(match["line"]), trial, texts)
        ]

    def put_back(self, trial: Trial) -> None:
        """Restores the proof files that were changed for a trial."""
        for name, content in trial.before.items():
            (self.bench.folder / name).parent.mkdir(parents=True, exist_ok=True)
            (self.bench.folder / name).write_text(content)
        trial.before.clear()


@dataclass
class Composed:
    """A file with several changes, no two of which overlap."""

    before: str
    changes: list[Change] = field(default_factory=list)

    @cached_property
    def edits(self) -> tuple[tuple[int, int, str], ...]:
        return tuple(sorted(edit for change in self.changes for edit in change.edits))

    @cached_property
    def text(self) -> str:
        return Change("", "", self.edits).applied(self.before)

    def lines_of(self, place: Place) -> range:
        """The lines that a function has in the changed text."""
        return range(self.line_at(place.begin), self.line_at(place.end) + 1)

    def line_at(self, at: int) -> int:
        """The line in the changed text of a place in the text before that no change covers."""
        moved = sum(
            new.count("\n") - self.before.count("\n", start, end)
            for start, end, new in self.edits
            if end <= at
        )
        return self.before.count("\n", 0, at) + 1 + moved
