"""Draws random single changes of the bodies in the library crates, each line of a body as likely as the next, makes them
in a copy, and checks their crates, with one change of each function at a time. A change without a verdict, or one that seems
proved, is checked again as the only change. If a change only removes a name that an answer in proofs/ uses, it is tried again
without these answers. Changes that are still proved are listed as diffs: they mean the same as before, or a contract is too weak.
The same seed with the same sources gives the same changes, so a log continues where it ended. It isn't part of the gate."""
import argparse
import contextlib
import hashlib
import json
import signal
import sys
import tempfile
from collections import Counter
from collections.abc import Iterator
from concurrent.futures import ThreadPoolExecutor
from dataclasses import asdict, dataclass
from pathlib import Path
from queue import SimpleQueue
from threading import Event, Lock

from dev.mutants.checking import SECONDS, Bench, Verdict
from dev.mutants.drawing import Drawn, Urn, library_crates, urn_of
from dev.mutants.rounds import Outcome, Rounds

# ---------------------------------------------------------------- the log


@dataclass
class Tried:
    """A line of the log."""

    number: int
    crate: str
    file: str
    line: int
    function: str
    kind: str
    verdict: str
    said: str
    removed: list[str]
    seconds: float
    diff: str
    beside: int = 0
    """The number of other changes in the check with the verdict."""


def tried_of(outcome: Outcome) -> Tried:
    drawn = outcome.drawn
    return Tried(
        drawn.number,
        drawn.crate,
        drawn.file,
        drawn.line,
        drawn.change.function,
        drawn.change.kind,
        outcome.verdict,
        outcome.said,
        outcome.removed,
        outcome.seconds,
        drawn.diff(),
        outcome.beside,
    )


class Log:
    """A file of lines in JSON: the sources of the draws, and then the changes that were tried."""

    def __init__(self, path: Path | None, urn: Urn, seed: int) -> None:
        self.path = path
        self.tried: dict[int, Tried] = {}
        self.lock = Lock()
        digest = hashlib.sha256(
            "".join(urn.texts[name] for name in sorted(urn.texts)).encode()
        ).hexdigest()
        self.front = {"seed": seed, "files": len(urn.texts), "sources": digest}
        if path and path.exists():
            front, *rows = map(json.loads, path.read_text().splitlines())
            if front != self.front:
                sys.exit(f"{path} is of another seed, other crates or other sources")
            self.tried = {row["number"]: Tried(**row) for row in rows}
        elif path:
            path.write_text(json.dumps(self.front) + "\n")

    def has(self, number: int) -> bool:
        """Whether the verdict on a change is in the log."""
        return number in self.tried and self.tried[number].verdict != Verdict.UNKNOWN

    def add(self, tried: Tried) -> None:
        """Keeps and prints a change that was tried."""
        with self.lock:
            self.tried[tried.number] = tried
            if self.path:
                with self.path.open("a") as file:
                    file.write(json.dumps(asdict(tried)) + "\n")
            beside = f" beside {tried.beside}" if tried.beside else ""
            print(
                f"{tried.number}: {tried.verdict}{beside} in {tried.seconds} s: {tried.kind} in {tried.function}, "
                f"{tried.file}:{tried.line}: {tried.said[:120]}",
                flush=True,
            )


# ---------------------------------------------------------------- the whole


@contextlib.contextmanager
def scratch(given: Path | None) -> Iterator[Path]:
    """The folder of the copies. A given one is kept, with the results of checks in it; a temporary one is removed."""
    if given:
        given.mkdir(parents=True, exist_ok=True)
        yield given.resolve()
    else:
        with tempfile.TemporaryDirectory(prefix="mutate-") as folder:
            yield Path(folder)


def try_all(todo: dict[str, list[Drawn]], log: Log, options: argparse.Namespace) -> None:
    """Tries the changes that the log lacks, several crates in parallel."""
    stop = Event()
    with scratch(options.scratch) as folder, ThreadPoolExecutor(options.jobs) as pool:
        benches: SimpleQueue[Bench] = SimpleQueue()
        for k in range(options.jobs):
            benches.put(Bench(folder / str(k), options.seconds))

        def try_crate(crate: str) -> None:
            if stop.is_set():
                return
            bench = benches.get()
            try:
                rounds = Rounds(bench, crate, bench.prove_unchanged(crate), stop)
                for outcome in rounds.outcomes(todo[crate]):
                    log.add(tried_of(outcome))
            finally:
                benches.put(bench)

        try:
            list(pool.map(try_crate, todo))
        except KeyboardInterrupt:
            print("ends once the checks that run are done; the log has what was tried", flush=True)
            stop.set()


def print_table(tried: list[Tried]) -> None:
    """The number of changes of each crate by verdict, and the changes that are proved."""
    counts = Counter((one.crate, one.verdict) for one in tried)
    shown = [verdict for verdict in Verdict if any(counts[crate, verdict] for crate, _ in counts)]
    print(f'{"":18}{"tried":>8}' + "".join(f"{verdict:>26}" for verdict in shown))
    for crate in [*sorted({one.crate for one in tried}), None]:
        of_crate = [
            counts[crate, verdict]
            if crate
            else sum(n for (_, v), n in counts.items() if v == verdict)
            for verdict in shown
        ]
        print(f'{crate or "all":18}{sum(of_crate):8}' + "".join(f"{n:26}" for n in of_crate))
    for one in tried:
        if one.verdict in (Verdict.PROVED, Verdict.UNKNOWN):
            without = f', without {", ".join(one.removed)}' if one.removed else ""
            print(
                f"\n{one.number}: {one.verdict}{without}: {one.kind} in {one.function}\n{one.diff}",
                end="",
            )


def parsed() -> argparse.Namespace:
    parser = argparse.ArgumentParser(description=__doc__)
    add = parser.add_argument
    add("--seed", type=int, default=1)
    add("--count", type=int, default=20, metavar="N", help="how many changes of the seed")
    add(
        "--crate",
        action="append",
        metavar="NAME",
        help="a crate to draw from, may be repeated (left out: all libraries)",
    )
    add(
        "--resume",
        type=Path,
        metavar="FILE",
        help="the log: what it has is not tried again, and it gets the rest",
    )
    add("--jobs", type=int, default=1, metavar="N", help="how many crates at a time")
    add("--seconds", type=float, default=SECONDS, metavar="S", help="the time of a check")
    add(
        "--scratch",
        type=Path,
        metavar="DIR",
        help="where the copies are made, some 2 GB each, and stay for the next call (left out: a folder that goes again)",
    )
    return parser.parse_args()


def main() -> int:
    options = parsed()
    crates = options.crate or library_crates()
    if unknown := sorted({*crates} - set(library_crates())):
        sys.exit(f'no library crate: {", ".join(unknown)}')
    urn = urn_of(sorted(set(crates)))
    drawn = list(urn.all_drawn(options.seed, options.count))
    log = Log(options.resume, urn, options.seed)
    for number in (signal.SIGINT, signal.SIGTERM):
        signal.signal(number, signal.default_int_handler)
    todo = {
        crate: [one for one in drawn if one.crate == crate and not log.has(one.number)]
        for crate in crates
    }
    try_all({crate: some for crate, some in todo.items() if some}, log, options)
    print_table([log.tried[one.number] for one in drawn if one.number in log.tried])
    return 0


if __name__ == "__main__":
    sys.exit(main())
