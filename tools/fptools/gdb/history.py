"""The events of all threads in windows of cycles, which are kept as long as there is room."""
from __future__ import annotations

from collections import OrderedDict
from dataclasses import dataclass
from typing import Collection, Iterator, Sequence

from fptools.files.dump import THREADS
from fptools.gdb.runs import RETIRES, Runs, Stream, last_cycle, last_line, offset_of
from fptools.files.trace import Event
from fptools.files.trace_blocks import BITS, CYCLE, EFFECT, PC

WINDOW = 4096  # cycles
AGAIN, MOST_AGAIN = (
    16,
    512,
)  # windows that are read again in one go: at first, and by one who goes on backwards
MOST_BYTES = 1 << 27  # of the windows that are kept


def event_in(line: bytes) -> Event:
    """The event of a line. Its gap isn't known here, and is 0."""
    return Event(
        int(line[CYCLE]), 0, int(line[PC], 16), int(line[BITS], 16), line[EFFECT].decode("ascii")
    )


def line_at(text: bytes, offset: int) -> bytes:
    """The line that begins at an offset, without its line feed; empty at the end."""
    return text[offset : text.index(b"\n", offset)] if offset < len(text) else b""


@dataclass(frozen=True)
class Window:
    """The lines of each thread in some cycles, and the last line of each before them."""

    first: int  # cycle
    texts: tuple[bytes, ...]
    before: tuple[bytes, ...]  # empty where the thread has no event

    @property
    def number(self) -> int:
        return self.first // WINDOW

    @property
    def end(self) -> int:
        """The cycle behind it."""
        return self.first + WINDOW

    @property
    def size(self) -> int:
        return sum(map(len, self.texts))

    def lines(self, thread: int, start: int, end: int) -> bytes:
        """The lines of a thread from a cycle on and before another."""
        text = self.texts[thread]
        first = offset_of(text, start) if start > self.first else 0
        return text[first : offset_of(text, end) if end < self.end else len(text)]

    def next_line(self, thread: int, cycle: int) -> bytes:
        """The first line of a thread in or after a cycle."""
        text = self.texts[thread]
        return line_at(text, offset_of(text, cycle))

    def line_before(self, thread: int, cycle: int) -> bytes:
        """The last line of a thread before a cycle."""
        text = self.texts[thread]
        return last_line(text[: offset_of(text, cycle)]) or self.before[thread]


class History:
    """The events of a run, as far as the calls of `Runs` go."""

    def __init__(self, runs: Runs, threads: Collection[int]) -> None:
        self._runs, self._threads = runs, sorted(threads)
        self._streams = [Stream(runs, thread) for thread in range(THREADS)]
        self._next = 0  # the window that the streams read next
        self._is_passing = False  # whether they have lines before it
        self._kept: OrderedDict[int, Window] = OrderedDict()
        self._size = 0
        self._again = AGAIN
        self._read_from = 0  # the first window that was read again in the last go
        self._last = 0  # the window that was looked at last

    def window(self, number: int) -> Window:
        """The window of the cycles from `number * WINDOW` on."""
        if number not in self._kept:
            if number < self._next and number == self._last + 1:
                self._restart()
            if number < self._next:
                self._read_again(number)
            else:
                self._read_to(number)
        self._kept.move_to_end(number)
        self._last = number
        return self._kept[number]

    def at(self, cycle: int) -> Window:
        return self.window(cycle // WINDOW)

    def onwards(self, start: int, end: int) -> Iterator[Window]:
        """The windows from a cycle to before another."""
        for number in range(start // WINDOW, -(-end // WINDOW)):
            self._runs.waiter.look()
            yield self.window(number)

    def backwards(self, start: int, keys: Collection[bytes] | None = None) -> Iterator[Window]:
        """The windows with cycles before one, the latest first. If there are keys, windows are left
        out that weren't kept and where no line has one of them."""
        numbers: Sequence[int] = range(-(-start // WINDOW))
        left = len(numbers)
        while left:
            self._runs.waiter.look()
            left -= 1
            number = numbers[left]
            if keys is not None and number < self._next and number not in self._kept:
                numbers = self._read_again(number, keys)
                left = len(numbers)
            yield self.window(number)

    def kept_before(self, number: int, most: int) -> int:
        """How many windows right before one are kept; at most so many."""
        return next((it for it in range(most) if number - 1 - it not in self._kept), most)

    def close(self) -> None:
        for stream in self._streams:
            stream.close()

    def _restart(self) -> None:
        """Begins new calls, for one who goes forwards over windows that weren't kept."""
        self.close()
        self._streams = [Stream(self._runs, thread) for thread in range(THREADS)]
        self._next = 0

    def _read_to(self, number: int) -> None:
        """Reads on up to a window. Of those passed over the last ones are kept."""
        for stream in self._streams:
            stream.aim = (number + 1) * WINDOW
        first = max(self._next, number - AGAIN + 1)
        if first > self._next or self._is_passing:
            self._next, self._is_passing = first, True
            for _ in self._passed(self._streams, first):
                continue
            self._is_passing = False
        while number >= self._next:
            self._keep(self._next, self._read(self._streams, self._next))
            self._next += 1

    def _passed(self, streams: list[Stream], number: int) -> Iterator[bytes]:
        """Passes over all windows before one, and gives their lines. The calls of all threads run at
        the same time."""
        behind = [streams[thread] for thread in self._threads]
        while behind:
            for stream in behind:
                yield stream.drop(number * WINDOW)
            behind = [stream for stream in behind if not stream.has(number * WINDOW)]
            for stream in behind:
                stream.read_on()

    def _read(self, streams: list[Stream], number: int) -> Window:
        """Reads the next window of streams."""
        end = (number + 1) * WINDOW
        for thread in self._threads:
            streams[thread].fill(end)
        before = tuple(stream.before for stream in streams)
        texts = tuple(
            stream.take(end) if thread in self._threads else b""
            for thread, stream in enumerate(streams)
        )
        return Window(number * WINDOW, texts, before)

    def _read_again(self, number: int, keys: Collection[bytes] = ()) -> list[int]:
        """Reads a window that wasn't kept, and those around it. Returns those before them that may
        have a line with one of some keys, and those that were read before it."""
        self._again = MOST_AGAIN if number == self._read_from - 1 else AGAIN
        first = self._read_from = max(number - self._again + 1, 0)
        end = min(number + 2, self._next)
        found: set[int] = set(range(first, number))
        cycles = end * WINDOW + RETIRES
        streams = [Stream(self._runs, thread, cycles) for thread in range(THREADS)]
        try:
            for lines in self._passed(streams, first):
                if any(key in lines for key in keys):
                    begin = int(lines[CYCLE]) // WINDOW
                    found.update(range(begin, last_cycle(lines) // WINDOW + 1))
            for again in range(first, end):
                self._keep(again, self._read(streams, again))
        finally:
            for stream in streams:
                stream.close()
        return sorted(found)

    def _keep(self, number: int, window: Window) -> None:
        self._size += window.size - (self._kept[number].size if number in self._kept else 0)
        self._kept[number] = window
        self._kept.move_to_end(number)
        while self._size > MOST_BYTES and len(self._kept) > 1:
            self._size -= self._kept.popitem(last=False)[1].size
