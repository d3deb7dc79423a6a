"""Measures the events per second of fp_visits and fp_trace on a trace of examples/sum.toml.

    python3 -m dev.measure.traces [--events N] [--flexpret PROGRAM]

The trace is a run of PROGRAM. Without one, its events are those of examples/sum.trace from the second period on, again and again with rising
cycles. The figures are the processor time of each tool, in the best of three calls, less that of a call with no events."""
import argparse
import resource
import subprocess
import sys
import tempfile
from collections.abc import Iterator
from itertools import islice
from pathlib import Path

from dev.program import TOP

TRACE, SETUP = TOP / "examples/sum.trace", TOP / "examples/sum.toml"
BEGIN = "00000010"
"""The address at which a period begins."""

CYCLES_AN_EVENT = 200 / 49
ROUNDS = 3
SECTION = ["--setup", str(SETUP), "--thread", "0", "--section", "0x10:0x3c", "--no-bounds"]
CALLS = {
    "fp_visits, a section with a loop, waits and traps": ["fp_visits", *SECTION],
    "fp_trace --traps": ["fp_trace", "--objdump", "", "--traps"],
    "fp_trace --pc 0x10": ["fp_trace", "--objdump", "", "--pc", "0x10"],
    "fp_trace, all events": ["fp_trace", "--objdump", ""],
}


def repeated() -> Iterator[str]:
    """The lines of the recorded trace, and then its second period again and again."""
    lines = TRACE.read_text(encoding="ascii").splitlines(keepends=True)
    first, second = [at for at, line in enumerate(lines) if line[11:19] == BEGIN][1:3]
    cycle, period = int(lines[first][:10]), int(lines[second][:10]) - int(lines[first][:10])
    yield from lines[:first]
    while True:
        for line in lines[first:second]:
            yield f"{int(line[:10]) - int(lines[first][:10]) + cycle:10d}{line[10:]}"
        cycle += period


def write_trace(path: Path, events: int, program: str | None) -> None:
    with path.open("w", encoding="ascii") as file:
        if program is None:
            file.writelines(islice(repeated(), events))
        else:
            words = [
                program,
                "run",
                "examples/sum.toml",
                "--thread",
                "0",
                "--cycles",
                str(int(events * CYCLES_AN_EVENT)),
            ]
            subprocess.run(words, cwd=TOP, stdout=file, check=True)


def seconds(words: list[str], trace: Path) -> float:
    """The processor's time of a call over a trace."""
    before = resource.getrusage(resource.RUSAGE_CHILDREN)
    command = [sys.executable, str(TOP / "tools" / words[0]), str(trace), *words[1:]]
    subprocess.run(
        command, cwd=TOP, stdout=subprocess.DEVNULL, stderr=subprocess.DEVNULL, check=True
    )
    after = resource.getrusage(resource.RUSAGE_CHILDREN)
    return after.ru_utime + after.ru_stime - before.ru_utime - before.ru_stime


def main() -> None:
    parser = argparse.ArgumentParser(
        description=__doc__, formatter_class=argparse.RawDescriptionHelpFormatter
    )
    parser.add_argument("--events", type=int, default=2_000_000)
    parser.add_argument("--flexpret")
    asked = parser.parse_args()
    with tempfile.TemporaryDirectory() as folder:
        trace, empty = Path(folder) / "it.trace", Path(folder) / "empty.trace"
        empty.touch()
        write_trace(trace, asked.events, asked.flexpret)
        with trace.open("rb") as file:
            events = sum(1 for _ in file)
        print(f"{events:,} events, {trace.stat().st_size / 1e6:.0f} MB")
        for name, words in CALLS.items():
            idle = min(seconds(words, empty) for _ in range(ROUNDS))
            taken = min(seconds(words, trace) for _ in range(ROUNDS)) - idle
            print(
                f"{name}: {events / taken / 1e6:.2f} million events a second ({taken:.2f} s, and {idle:.2f} s to begin)",
                flush=True,
            )


if __name__ == "__main__":
    main()
