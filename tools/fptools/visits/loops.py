"""Counts the rounds of a loop."""
from __future__ import annotations

import re
from collections import Counter

from fptools.files.setup import LoopTable
from fptools.files.trace_blocks import BITS, Block, character, span, trap_character
from fptools.isa.words import MRET
from fptools.visits.meters import TAKES_TURN, cause_of
from fptools.visits.seen import MOST_KEPT, Rounds


class LoopMeter:
    """Counts how often a loop goes back to its head, each time that it is entered: its counter as bounds
    define it. Calls and traps between don't end an entry where the thread comes back into the loop.
    """

    def __init__(self, table: LoopTable) -> None:
        self.seen = Rounds(table)
        self._run = re.compile(f"[{span(table.head, table.last + 4)}]+")
        self._head, self._trap_at_head = character(table.head), trap_character(table.head)
        self._backs: int | None = None  # of the entry that is open
        self._entered = 0  # its cycle
        self._touches = False  # the last event was in the loop
        self._is_taken = False  # an expiry took the turn of the head, after a word of the loop

    def take(self, block: Block) -> None:
        events = block.events
        if self._trap_at_head in events or self._is_taken or not self._take_alike(block):
            self._take_in_order(block)
        else:
            self._touches = self._run.match(events, len(events) - 1) is not None

    def end(self, cycle: int) -> None:
        """An entry that the trace's end cuts counts where it went back more often than all others, or
        than its table says."""
        bound, most = self.seen.table.bound, self.seen.backs.most
        if self._backs is not None and (
            not self._touches or self._backs > most or bound is not None and self._backs > bound
        ):
            self._close()

    def _take_alike(self, block: Block) -> bool:
        """Counts equal runs of the loop's words together, where each is an entry, and none goes back
        more often than those before. Otherwise nothing is counted, and the answer is False."""
        runs = self._run.findall(block.events)
        first = 1 if runs and self._touches and self._run.match(block.events) else 0
        middle = Counter(runs[first:-1])
        spread, table = self.seen.backs, self.seen.table
        most = spread.most if table.bound is None else min(spread.most, table.bound)
        kinds = [
            (run.count(self._head) - 1, times)
            for run, times in middle.items()
            if run[0] == self._head
        ]
        is_plain = len(runs) > first + 1 and len(kinds) == len(middle) and runs[-1][0] == self._head
        if not is_plain or not spread.count or any(backs > most for backs, _ in kinds):
            return False
        if first and self._backs is not None:
            self._backs += runs[0].count(self._head)
        self._close()
        for backs, times in kinds:
            spread.add(backs, 0, times)
        last = block.events.rfind(runs[-1])
        self._open(block.cycle(last), runs[-1].count(self._head) - 1)
        return True

    def _take_in_order(self, block: Block) -> None:
        events = self._with_trapping_heads(block)
        if self._touches and events[0] == self._trap_at_head:
            self._is_taken = True
        for run in self._run.finditer(events):
            heads = run.group().count(self._head)
            self._take_run(block, run.start(), heads, run.group()[0] == self._head)
            self._is_taken = run.end() < len(events) and events[run.end()] == self._trap_at_head
        self._touches = self._run.match(events, len(events) - 1) is not None

    def _with_trapping_heads(self, block: Block) -> str:
        """The events, where a trap of the head's own word is an issue of the head."""
        events = list(block.events)
        for index in block.traps:
            if (
                events[index] == self._trap_at_head
                and cause_of(block.lines[index]) not in TAKES_TURN
            ):
                events[index] = self._head
        return "".join(events)

    def _take_run(self, block: Block, index: int, heads: int, begins: bool) -> None:
        goes_on = (
            index == 0
            and self._touches
            or self._is_taken
            and _is_return_of_trap(block.line(index - 1))
        )
        if begins and not goes_on:
            self._close()
            self._open(block.cycle(index), heads - 1)
        elif self._backs is not None:
            self._backs += heads
        else:
            self.seen.elsewhere += 1
            self._open(block.cycle(index), heads)

    def _open(self, cycle: int, backs: int) -> None:
        self._entered, self._backs = cycle, backs

    def _close(self) -> None:
        if self._backs is None:
            return
        self.seen.backs.add(self._backs, self._entered)
        bound = self.seen.table.bound
        if bound is not None and self._backs > bound and len(self.seen.breaks) < MOST_KEPT:
            self.seen.breaks.append((self._entered, self._backs))
        self._backs = None


def _is_return_of_trap(line: bytes | None) -> bool:
    return line is not None and int(line[BITS], 16) == MRET
