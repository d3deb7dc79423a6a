"""Proves the crates of a program, as many at once as processors and memory allow, and builds it."""

import errno
import os
import shutil
import signal
import subprocess
import sys
import time
from concurrent.futures import FIRST_COMPLETED, Future, ThreadPoolExecutor, wait
from contextlib import ExitStack, suppress
from graphlib import TopologicalSorter
from pathlib import Path
from threading import RLock
from types import FrameType
from typing import TextIO

from fptools.launch.forecast import Plan, Progress, jobs, minutes
from fptools.launch.trees import locked, tree_of
from fptools.launch.up_to_date import Checkout, kit_line

NEEDED_DISK = 3 << 30
"""Bytes that a build may take on the disk."""

LOGIC = "dac8208d650f15bf"
"""The logic of the kit that README.md names."""

TRIED = {"flexpret_cli": ["asm", "data/loads.s"], "flexpret_view": ["--help"]}
"""The arguments of the call by which `rt run` tries a program at the end of its build, if they aren't those of its file `args`."""


UNPROVED = {"flexpret_cli": "--model", "flexpret_view": "--unproved"}
"""The option of each script by which it answers without a build."""


class NotBuilt(Exception):
    """The reason why there is no program, in one line."""


class Builder:
    """Runs `rt` over the crates of a plan."""

    def __init__(self, plan: Plan, log: TextIO) -> None:
        self.plan, self.log = plan, log
        self.lock = RLock()
        self.children: set[subprocess.Popen[str]] = set()
        self.stopped = False
        self.hold = ExitStack()
        """Keeps `rt ci` out of the checkout until the crates below the program are proved."""

    def call(self, top: Path, crate: str, niceness: int, words: list[str]) -> None:
        """Calls `rt` in a crate's folder below `top`, and appends its output to the log. A failure raises NotBuilt with its last line."""
        with self.lock:
            if self.stopped:
                raise NotBuilt("broken off")
            child = subprocess.Popen(
                ["nice", "-n", str(niceness), "rt", *words], cwd=top / "crates" / crate, stdin=subprocess.DEVNULL,
                stdout=subprocess.PIPE, stderr=subprocess.STDOUT, text=True, errors="replace", process_group=0,
            )  # fmt: skip
            self.children.add(child)
        said, _ = child.communicate()
        said = said.replace(str(top), str(self.plan.checkout.top))
        with self.lock:
            self.children.discard(child)
            self.log.write(f"== {crate}\n{said}")
            self.log.flush()
        if child.returncode:
            raise NotBuilt(why_not(crate, said, child.returncode))

    def prove(self, crate: str, niceness: int, count: int) -> None:
        """Proves a crate by `count` jobs. The program's own crate is also linked, and its program called once."""
        flags, checkout = ["--jobs", str(count)], self.plan.checkout
        if crate == checkout.crate:
            self.hold.close()
            self.call(
                checkout.top,
                crate,
                niceness,
                ["run", *flags, *(["--", *TRIED[crate]] if crate in TRIED else [])],
            )
        else:
            with tree_of(checkout, crate) as top:
                self.call(top, crate, niceness, ["lib", *flags])

    def stop(self) -> None:
        """Ends the running proofs. A signal may call this while the main thread is already in it: the lock is reentrant."""
        with self.lock:
            self.stopped = True
            for child in self.children:
                with suppress(ProcessLookupError):  # it has just ended
                    os.killpg(child.pid, signal.SIGTERM)

    def build(self, progress: Progress) -> None:
        """Proves all crates of the plan, each after those that it uses, the longest chain first."""
        plan = self.plan
        order = TopologicalSorter(plan.below)
        order.prepare()
        ready: list[str] = []
        futures: dict[Future[None], str] = {}
        with self.hold, ThreadPoolExecutor(plan.at_once) as pool:
            waits = (
                ""
                if progress.quiet
                else f"{progress.script}: an rt works in this checkout: waiting for it"
            )
            self.hold.enter_context(locked(plan.checkout.out.parent, waits))
            try:
                while order.is_active():
                    ready = sorted([*ready, *order.get_ready()], key=plan.chain.__getitem__)
                    while ready and len(futures) < plan.at_once:
                        crate = ready.pop()
                        plan.running[crate] = time.monotonic()
                        how = (crate, plan.niceness(crate), plan.jobs(len(ready)))
                        futures[pool.submit(self.prove, *how)] = crate
                    progress.show()
                    ended, _ = wait(
                        futures,
                        timeout=30 if progress.terminal else None,
                        return_when=FIRST_COMPLETED,
                    )
                    for future in ended:
                        crate = futures.pop(future)
                        future.result()
                        plan.done[crate] = time.monotonic() - plan.running.pop(crate)
                        order.done(crate)
            except BaseException:
                self.stop()
                raise
            finally:
                progress.end()


def why_not(crate: str, said: str, status: int) -> str:
    """The reason why `rt` failed on a crate, in one line."""
    if "No space left on device" in said or "the disk is full" in said:
        return f"the disk is full: {crate} can't be proved"
    lines = [line for line in said.splitlines() if "error" in line or line.startswith("rt: ")]
    last = (lines or said.splitlines() or [f"status {status}"])[-1]
    return f"{crate} is not proved: {last.strip()[:200]}"


def first_line(checkout: Checkout, plan: Plan) -> str:
    """The first message of a build."""
    return (
        f"{'the program' if checkout.crate in UNPROVED else checkout.crate} isn't built yet: {len(plan.below)} crates are proved first, in about"
        f" {minutes(plan.left())}"
        + (
            f"; for an answer now, without a proof: {UNPROVED[checkout.crate]}"
            if checkout.crate in UNPROVED
            else ""
        )
    )


def look_ahead(checkout: Checkout) -> None:
    """Raises NotBuilt if a build can't succeed: no `rt`, no folder, no space on the disk."""
    if shutil.which("rt") is None:
        raise NotBuilt(
            "the program isn't built, and rt of the kit that README.md names isn't on the PATH"
        )
    try:
        checkout.out.mkdir(parents=True, exist_ok=True)
        free = shutil.disk_usage(checkout.out).free
    except OSError as fault:
        raise NotBuilt(f"{checkout.out} can't be made: {fault.strerror}") from None
    if not os.access(checkout.out, os.W_OK):
        raise NotBuilt(f"{checkout.out} can't be written")
    if free < NEEDED_DISK:
        raise NotBuilt(f"the disk has {free >> 20} MB left; a build needs {NEEDED_DISK >> 20}")


def other_kit(kit: str) -> str:
    """A remark about a kit that isn't the one in README.md, else nothing."""
    return "" if LOGIC in kit else f" (the kit is {kit}; README.md names one with logic {LOGIC})"


def build(script: str, checkout: Checkout, quiet: bool) -> None:
    """Builds the program, unless another call has built it in the meantime."""
    look_ahead(checkout)
    waits = "" if quiet else f"{script}: another call builds here: waiting for it"
    with locked(checkout.top / "crates.txt", waits) as waited:
        if waited and checkout.is_built():
            return
        plan = Plan(checkout, jobs())
        if not quiet:
            print(f"{script}: {first_line(checkout, plan)}", file=sys.stderr, flush=True)
        kit, sources = kit_line(), checkout.listed()
        log = checkout.out / f"{checkout.crate}.log"
        try:
            with log.open("w") as file:
                run_builder(Builder(plan, file), Progress(script, plan, quiet))
            checkout.write_stamp(kit, sources)
        except NotBuilt as fault:
            raise NotBuilt(f"{fault}{other_kit(kit)}; see {log}") from None
        except OSError as fault:
            why = "the disk is full" if fault.errno == errno.ENOSPC else fault.strerror
            raise NotBuilt(f"{fault.filename or checkout.out}: {why}") from None


def run_builder(builder: Builder, progress: Progress) -> None:
    """Builds. A signal ends the running proofs; the next call continues after the crates that are proved."""

    def end(number: int, frame: FrameType | None) -> None:
        builder.stop()
        raise NotBuilt("broken off; the next call goes on with what is proved")

    before = {
        number: signal.signal(number, end)
        for number in (signal.SIGINT, signal.SIGTERM, signal.SIGHUP)
    }
    try:
        builder.build(progress)
    finally:
        for number, handler in before.items():
            signal.signal(number, handler)
