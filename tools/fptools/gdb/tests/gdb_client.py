"""A small gdb: packets to tools/fp_gdb, over pipes."""
from __future__ import annotations

import os
import select
import subprocess
import sys
from types import TracebackType

from fptools.testing.common import TOOLS, TOP
from fptools.gdb.packets import framed, unescaped
from fptools.gdb.registers import REGISTERS

SECONDS = 60.0


class Client:
    """A session with a setup. `ask` gives the answer to a packet."""

    def __init__(
        self, program: str, setup: object, *options: object, acknowledges: bool = False
    ) -> None:
        self.child = subprocess.Popen(
            [sys.executable, str(TOOLS / "fp_gdb"), str(setup), *map(str, options)],
            stdin=subprocess.PIPE, stdout=subprocess.PIPE, stderr=subprocess.PIPE, cwd=TOP,
            env={**os.environ, "FLEXPRET": program},
        )  # fmt: skip
        assert self.child.stdin and self.child.stdout
        self.sink, self.source = self.child.stdin.fileno(), self.child.stdout.fileno()
        self._buffer = b""
        if not acknowledges:
            assert self.ask("QStartNoAckMode") == "OK"
            self.write(b"+")

    def __enter__(self) -> Client:
        return self

    def __exit__(
        self,
        kind: type[BaseException] | None,
        value: BaseException | None,
        trace: TracebackType | None,
    ) -> None:
        self.child.kill()
        self.child.wait()
        for pipe in (self.child.stdin, self.child.stdout, self.child.stderr):
            assert pipe
            pipe.close()

    def write(self, data: bytes) -> None:
        os.write(self.sink, data)

    def bytes_until(self, end: bytes, more: int = 0) -> bytes:
        """What comes up to some bytes, and some more behind them."""
        while (
            end not in self._buffer or len(self._buffer) < self._buffer.index(end) + len(end) + more
        ):
            assert select.select([self.source], [], [], SECONDS)[
                0
            ], f"no answer; there is {self._buffer!r}"
            data = os.read(self.source, 1 << 16)
            assert data, f"the session has ended; there is {self._buffer!r}"
            self._buffer += data
        size = self._buffer.index(end) + len(end) + more
        taken, self._buffer = self._buffer[:size], self._buffer[size:]
        return taken

    def answer(self) -> str:
        """The next packet's data."""
        packet = self.bytes_until(b"#", 2)
        return unescaped(packet[packet.index(b"$") + 1 : -3]).decode("latin-1")

    def ask(self, packet: str) -> str:
        self.write(framed(packet.encode("latin-1")))
        return self.answer()

    def monitor(self, text: str) -> str:
        """What a command of `monitor` writes."""
        answer, said = self.ask(f"qRcmd,{text.encode().hex()}"), ""
        while answer.startswith("O") and answer != "OK":
            said += bytes.fromhex(answer[1:]).decode()
            answer = self.answer()
        assert answer == "OK"
        return said

    def go_to(self, cycle: int) -> str:
        self.monitor(f"cycle {cycle}")
        return self.ask("vCont;c:-1")

    def registers(self, thread: int) -> dict[str, int | None]:
        """The registers of a thread by their names; None where one isn't known."""
        assert self.ask(f"Hg{thread + 1}") == "OK"
        text, found = self.ask("g"), dict[str, int | None]()
        for register in REGISTERS:
            digits, text = text[: register.bits // 4], text[register.bits // 4 :]
            is_known = not digits.startswith("x")
            found[register.name] = (
                int.from_bytes(bytes.fromhex(digits), "little") if is_known else None
            )
        assert text == ""
        return found

    def memory(self, address: int, size: int) -> bytes:
        return bytes.fromhex(self.ask(f"m{address:x},{size:x}"))
