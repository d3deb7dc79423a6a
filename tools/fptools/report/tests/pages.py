"""What the tests of fp_report share: a reader of its pages."""
from __future__ import annotations

import json
from html.parser import HTMLParser
from pathlib import Path
from typing import Any

PID = ("examples/c/pid.toml", "examples/c/budgets.toml", "--elf", "examples/c/pid.elf")
RUN = ("--cycles", "10000")
HOSTILE = "<b>&\"' </script><script>alert(1)</script>"
STEP = '[[budget]]\nname = {}\nthread = 0\nfrom = "step_begin"\nto = "step_end"\nassume = ["no traps", "moved work"]\ncycles = {}\n'


class Reader(HTMLParser):
    """The elements of a page, with what is in them."""

    VOID = ("meta", "link", "input")

    def __init__(self, text: str) -> None:
        super().__init__()
        self.open: list[str] = []
        self.elements: list[tuple[str, dict[str, str | None]]] = []
        self.scripts: list[str] = []
        self.texts: list[str] = []
        self.feed(text)
        self.close()

    def handle_starttag(self, tag: str, attrs: list[tuple[str, str | None]]) -> None:
        self.elements.append((tag, dict(attrs)))
        if tag == "script":
            self.scripts.append("")
        if tag not in self.VOID:
            self.open.append(tag)

    def handle_startendtag(self, tag: str, attrs: list[tuple[str, str | None]]) -> None:
        self.elements.append((tag, dict(attrs)))

    def handle_endtag(self, tag: str) -> None:
        assert self.open.pop() == tag

    def handle_data(self, data: str) -> None:
        if self.open and self.open[-1] == "script":
            self.scripts[-1] += data
        elif not self.open or self.open[-1] != "style":
            self.texts.append(data)

    @property
    def text(self) -> str:
        return " ".join(" ".join(self.texts).split())

    @property
    def data(self) -> Any:
        """The texts for the timeline's pointer."""
        return json.loads(self.scripts[0])


def read(page: Path) -> Reader:
    return Reader(page.read_text(encoding="utf-8"))
