"""The forecast of a build, from the sizes of its sources and the proofs so far, and its progress."""

import os
import re
import shutil
import sys
import time
from dataclasses import dataclass, field
from functools import cached_property
from graphlib import TopologicalSorter

from fptools.launch.up_to_date import SUFFIXES, Checkout

NEEDED_MEMORY = 2 << 30
"""Bytes that one proof may take."""

JOB_MEMORY = 4 << 30
"""Bytes that each job of a proof by several jobs may take: all libraries of the last crates."""

FIRST_SECONDS, SOURCE_SECONDS, PROOF_SECONDS, LIBRARY_SECONDS, LINK_SECONDS = (
    10.0,
    0.0018,
    0.0003,
    3.0,
    60.0,
)
"""The seconds of a crate on a processor of 2.5 GHz: fixed, for a byte of src, for a byte of specs and proofs, for each crate that it uses, and for
the link of a program."""

JOBS_GAIN = 1.3
"""How many times as fast the longest chain of crates is proved where processors are idle: they get jobs of its proofs."""

TRUST_SECONDS, OVERRUN = 60.0, 0.2
"""The forecast by the load counts as so many seconds of proofs; and the part of its time so far that a proof may still take if it takes longer than
its estimate."""

SLACK_SECONDS, MOST_NICENESS = 30.0, 15
"""Seconds, and the largest niceness. A proof gets one point for each SLACK_SECONDS by which its chain is shorter than the longest one."""


def seconds_of(checkout: Checkout, crate: str) -> float:
    """An estimate of a crate's proof: seconds of one job on a quiet processor of 2.5 GHz."""
    folder = checkout.top / "crates" / crate
    seconds = FIRST_SECONDS + LIBRARY_SECONDS * (len(Checkout(checkout.top, crate).crates()) - 1)
    for file in folder.rglob("*"):
        part = file.relative_to(folder).parts[0]
        if part != "out" and file.name.endswith(SUFFIXES):
            seconds += file.stat().st_size * (SOURCE_SECONDS if part == "src" else PROOF_SECONDS)
    return seconds


def free_memory() -> int:
    """The bytes of memory that are free."""
    with open("/proc/meminfo") as file:
        found = re.search(r"^MemAvailable:\s+(\d+) kB$", file.read(), re.MULTILINE)
    return int(found[1]) << 10 if found else NEEDED_MEMORY


def processors() -> int:
    return len(os.sched_getaffinity(0))


def jobs() -> int:
    """The number of crates that are proved at once."""
    return max(1, min(processors(), free_memory() // NEEDED_MEMORY))


def minutes(seconds: float) -> str:
    """A time in words."""
    return f"{max(1, round(seconds / 60))} minute{'s' if round(seconds / 60) > 1 else ''}"


@dataclass
class Plan:
    """The crates of a program, and the state of their proofs."""

    checkout: Checkout
    at_once: int
    begun: float = field(default_factory=time.monotonic)
    running: dict[str, float] = field(default_factory=dict)
    done: dict[str, float] = field(default_factory=dict)
    """The seconds that each crate took."""
    load: float = field(default_factory=lambda: os.getloadavg()[0])
    """How many programs wanted a processor before."""

    @cached_property
    def below(self) -> dict[str, list[str]]:
        """The crates of the repository that each crate uses."""
        libraries = self.checkout.libraries()
        return {
            crate: [one for one in libraries[crate] if one in libraries]
            for crate in self.checkout.crates()
        }

    @cached_property
    def weight(self) -> dict[str, float]:
        """The estimated seconds of each crate, and of the link for the program's own."""
        weight = {crate: seconds_of(self.checkout, crate) for crate in self.below}
        weight[self.checkout.crate] += LINK_SECONDS
        return weight

    @cached_property
    def chain(self) -> dict[str, float]:
        """The estimated seconds from the start of each crate to the end, along the longest chain of crates that depend on it."""
        chain: dict[str, float] = {}
        for crate in reversed(list(TopologicalSorter(self.below).static_order())):
            above = [chain[one] for one, uses in self.below.items() if crate in uses]
            chain[crate] = self.weight[crate] + max(above, default=0.0)
        return chain

    def left(self) -> float:
        """The estimated seconds until the program is built, by the pace so far."""
        pace, rest = self.pace(), self.rest()
        longest = max(
            ((self.chain[it] - self.weight[it]) * pace + left for it, left in rest.items()),
            default=0.0,
        )
        return max(sum(rest.values()) / self.at_once, longest / JOBS_GAIN)

    def ahead(self) -> list[str]:
        """The crates that aren't proved yet."""
        return [crate for crate in self.below if crate not in self.done]

    def spent(self) -> dict[str, float]:
        """The seconds that each running proof took so far."""
        now = time.monotonic()
        return {crate: now - since for crate, since in self.running.items()}

    def rest(self) -> dict[str, float]:
        """The estimated seconds that each crate still takes here."""
        pace, spent = self.pace(), self.spent()
        expected = {crate: self.weight[crate] * pace for crate in self.ahead()}
        return expected | {
            crate: max(expected[crate] - took, took * OVERRUN)
            for crate, took in spent.items()
            if crate in expected
        }

    def niceness(self, crate: str) -> int:
        """The niceness of a crate's proof: 0 for the crate at the start of the longest chain."""
        longest = max(self.chain[one] for one in self.ahead())
        return min(MOST_NICENESS, int((longest - self.chain[crate]) / SLACK_SECONDS))

    def jobs(self, ready: int) -> int:
        """The number of jobs of the proof that was added to `running` last: one, and one for each processor that neither the other
        running proofs nor the `ready` crates need. Each job reads all libraries of the crate, so memory limits them too.
        """
        idle = self.at_once - len(self.running) - ready
        return 1 + max(0, min(idle, free_memory() // JOB_MEMORY - 1))

    def pace(self) -> float:
        """The time of crates here, relative to a quiet processor of 2.5 GHz: by the load before the build, by crates that are proved, and by those
        that take longer than their estimate. Crates that took less than FIRST_SECONDS had been proved before.
        """
        by_load = max(1.0, (self.load + self.at_once) / processors())
        took, known = TRUST_SECONDS * by_load, TRUST_SECONDS
        for crate, seconds in [*self.done.items(), *self.spent().items()]:
            is_late = seconds > self.weight[crate] * by_load
            if (crate in self.done and seconds > FIRST_SECONDS) or (
                crate not in self.done and is_late
            ):
                took, known = took + seconds, known + self.weight[crate]
        return took / known


class Progress:
    """Progress on standard error: one line that is rewritten on a terminal, else a line for each crate that is proved."""

    def __init__(self, script: str, plan: Plan, quiet: bool) -> None:
        self.script, self.plan, self.quiet = script, plan, quiet
        self.terminal = sys.stderr.isatty()

    def show(self) -> None:
        if self.quiet:
            return
        plan = self.plan
        spent = plan.spent()
        at = (
            ", ".join(
                crate + (f" (for {minutes(spent[crate])})" if spent[crate] >= 60 else "")
                for crate in plan.running
            )
            or "the program"
        )
        line = f"{self.script}: {len(plan.done)} of {len(plan.below)} crates proved; now {at}; about {minutes(plan.left())} left"
        if self.terminal:
            columns = shutil.get_terminal_size().columns
            print(f"\r\x1b[K{line[: columns - 1]}", end="", file=sys.stderr, flush=True)
        else:
            print(line, file=sys.stderr, flush=True)

    def end(self) -> None:
        if self.terminal and not self.quiet:
            print("\r\x1b[K", end="", file=sys.stderr, flush=True)
