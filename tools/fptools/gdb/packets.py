"""Packets of gdb's remote protocol on two descriptors: framing, checksums, escapes, and Ctrl-C.

A packet is `$DATA#SUM`. SUM is that of the data's bytes modulo 256, as two hexadecimal digits. In
DATA a `}` is followed by a byte whose bit 5 is flipped. `+` and `-` answer each packet until gdb
asks for no acknowledgements. A byte 3 outside of a packet is Ctrl-C."""
from __future__ import annotations

import os
import select

INTERRUPT = 0x03
ESCAPE, FLIPPED = 0x7D, 0x20
ESCAPED = frozenset(b"#$}*")
MOST_BYTES = 0x4000  # of a packet's data
READ_BYTES = 1 << 16


class Gone(Exception):
    """gdb has closed its side."""


class Interrupted(Exception):
    """gdb has sent Ctrl-C."""


def escaped(data: bytes) -> bytes:
    """Data in the form of a packet."""
    out = bytearray()
    for byte in data:
        out += bytes((ESCAPE, byte ^ FLIPPED)) if byte in ESCAPED else bytes((byte,))
    return bytes(out)


def unescaped(data: bytes) -> bytes:
    """The data of a packet's content."""
    out = bytearray()
    bytes_of = iter(data)
    for byte in bytes_of:
        out.append(next(bytes_of, 0) ^ FLIPPED if byte == ESCAPE else byte)
    return bytes(out)


def framed(data: bytes) -> bytes:
    """A packet with its sum."""
    inside = escaped(data)
    return b"$%s#%02x" % (inside, sum(inside) % 256)


def _is_sum(text: bytes, inside: bytes) -> bool:
    """Whether two digits are the sum of a packet's content."""
    try:
        return int(text, 16) == sum(inside) % 256
    except ValueError:
        return False


class Connection:
    """gdb's side, by the descriptors from which it is read and to which it is written."""

    def __init__(self, source: int, sink: int) -> None:
        self._source, self._sink = source, sink
        self._buffer = bytearray()
        self._last = b""
        self.acknowledges = True
        self.is_running = False  # Ctrl-C counts only while the machine runs

    def receive(self) -> bytes:
        """The data of the next packet. A broken one is requested again; other bytes are dropped."""
        while True:
            packet = self._next()
            if packet is not None:
                return packet
            self._read()

    def send(self, data: bytes) -> None:
        if self.acknowledges:
            self._drop_impatience()
        self._last = framed(data)
        self._write(self._last)

    def _drop_impatience(self) -> None:
        """Drops what gdb has sent while it waited: after two seconds it asks again."""
        while select.select([self._source], [], [], 0)[0]:
            self._read()
        del self._buffer[: len(self._buffer) - len(self._buffer.lstrip(b"+-"))]

    def wait_for(self, descriptor: int) -> None:
        """Returns when a descriptor can be read. Ctrl-C before that is an `Interrupted`, and the
        end of gdb's side a `Gone`."""
        while True:
            ready, _, _ = select.select([descriptor, self._source], [], [])
            if self._source in ready:
                self._read()
                self._look()
            if descriptor in ready:
                return

    def look(self) -> None:
        """Raises what `wait_for` raises, and waits for nothing."""
        if select.select([self._source], [], [], 0)[0]:
            self._read()
        self._look()

    def _look(self) -> None:
        if self.is_running and INTERRUPT in self._buffer:
            self._buffer.clear()
            raise Interrupted

    def _read(self) -> None:
        try:
            data = os.read(self._source, READ_BYTES)
        except ConnectionError as fault:
            raise Gone from fault
        if not data:
            raise Gone
        self._buffer += data

    def _write(self, data: bytes) -> None:
        try:
            while data:
                data = data[os.write(self._sink, data) :]
        except ConnectionError as fault:
            raise Gone from fault

    def _next(self) -> bytes | None:
        """The first whole packet of the buffer."""
        while True:
            start = self._buffer.find(b"$")
            before = self._buffer[:start] if start >= 0 else self._buffer[:]
            if b"-" in before and self.acknowledges:
                self._write(self._last)
            del self._buffer[: len(before)]
            end = self._buffer.find(b"#")
            if end < 0 and len(self._buffer) > 2 * MOST_BYTES:
                self._buffer.clear()
            if end < 0 or len(self._buffer) < end + 3:
                return None
            whole = bytes(self._buffer[: end + 3])
            inside, digits = whole[1:end], whole[end + 1 :]
            del self._buffer[: end + 3]
            is_sound = _is_sum(digits, inside)
            if self.acknowledges:
                self._write(b"+" if is_sound else b"-")
            if is_sound:
                self._last = b""
                # Of a packet that gdb has repeated since it had no answer yet, one is answered.
                while self.acknowledges and self._buffer.lstrip(b"+-").startswith(whole):
                    del self._buffer[: self._buffer.index(whole) + len(whole)]
                return unescaped(inside)
