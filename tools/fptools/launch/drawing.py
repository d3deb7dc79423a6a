"""Draws the window of `turns` in the form that is asked for."""
from __future__ import annotations

import sys
from pathlib import Path
from typing import Iterator

from fptools.launch.arguments import Asked, Fault
from fptools.launch.view import form_of, parse
from fptools.program.status import Status
from fptools.view.drawer import STANDARD_OUTPUT, drawn, put
from fptools.view.rows import Row, View, ViewFailed


def draw(script: str, program: str, words: list[str]) -> int:
    """Runs the program, and draws its window. Returns the status, with a line for a fault."""
    try:
        asked = parse(words)
        is_shown = "progress" in asked.values
        progress = asked.value("progress") if is_shown else ""
        if is_shown and asked.value(form_of(asked) or "") != STANDARD_OUTPUT:
            progress = "all"
        view = View(program, Path(asked.subjects[0]), progress)
        return write(script, asked, view.rows(int(asked.value("from")), int(asked.value("to"))))
    except Fault as fault:
        print(f"{script}: {fault}", file=sys.stderr)
        return Status.USAGE
    except ViewFailed as failure:
        sys.stdout.write(failure.output)
        sys.stderr.write(failure.errors)
        return failure.status


def write(script: str, asked: Asked, rows: Iterator[Row]) -> int:
    """Writes the drawing of a window. A reader of standard output that stops gets no line."""
    form = form_of(asked) or ""
    name = asked.value(form)
    try:
        return put(script, name, drawn(form, rows, int(asked.value("from"))))
    except BrokenPipeError:
        return Status.WRITE
