"""Stacks as JSON."""
from __future__ import annotations

import json
from typing import Iterable

from fptools.stack.stacks import Stack
from fptools.untyped import Values


def stacks_as_json(stacks: Iterable[Stack]) -> str:
    """Stacks as a JSON document: `bytes`, `room` and `left` are bytes, `top` is an address."""
    document = {"stacks": [stack_fields(it) for it in stacks]}
    return json.dumps(document, indent=2, ensure_ascii=False)


def stack_fields(stack: Stack) -> Values:
    """A stack as JSON has it."""
    is_known = stack.bytes is not None and stack.room is not None
    return {
        "thread": stack.thread,
        "verdict": stack.word.lower(),
        "bytes": stack.bytes,
        "room": stack.room,
        "left": (stack.room or 0) - (stack.bytes or 0) if is_known else None,
        "top": stack.top,
        "text": stack.text,
        "frames": [
            {"name": it.name, "line": it.line, "bytes": it.bytes, "trap": it.is_trap}
            for it in stack.frames
        ],
        "notes": list(stack.notes),
    }
