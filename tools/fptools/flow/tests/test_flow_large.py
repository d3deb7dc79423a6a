"""Bounds of a large function: how long they take, and the exact method without scipy."""
from __future__ import annotations

import time
from pathlib import Path

import pytest
from fptools.flow.tests.flow_build import HEAD, MAIN, built
from fptools.files.elf import Program
from fptools.flow.inference import Inference
from fptools.code.section import walk

LOOPS, MOST_SECONDS = 64, 5.0


def text_of() -> str:
    """A loop around 63 others, each with three branches."""
    branches = " ".join(f"if (x & {1 << it}) s += v; else s ^= x * {it + 3};" for it in range(3))
    inner = "".join(
        f"{{ FP_LOOP(l{k}, {k % 9 + 3}); for (u32 i = 0; i < x % {k % 9 + 4}; i++) "
        f"{{ FP_ROUND(l{k}); {branches} x = v; }} }}\n"
        for k in range(LOOPS - 1)
    )
    outer = f"FP_LOOP(o, 9); while (v) {{ FP_ROUND(o); {inner} }}"
    return f"{HEAD}static volatile u32 v; APART void f(u32 x) {{ u32 s = 0; {outer} FP_PORT = s; }}\n{MAIN}"


def test_a_large_function(tmp_path: Path, monkeypatch: pytest.MonkeyPatch) -> None:
    program = Program(built(tmp_path, [text_of()], ["-O2"]))
    (function,) = (it for it in program.functions if it.name == "f")
    assert function.end - function.start > 4 * 1700
    section = walk(program.words, function.start, function.end, (), is_function=True)
    begun = time.process_time()
    found = Inference(program).state([section])
    assert time.process_time() - begun < MOST_SECONDS
    bounds = [it.bound for _, it in found]
    assert len(bounds) == LOOPS and bounds[0] in (8, 9) and None not in bounds
    monkeypatch.setattr("fptools.flow.program.has", lambda *_: False)
    assert [it.bound for _, it in Inference(program).state([section])] == bounds
