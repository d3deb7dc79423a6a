"""fp_rewrite_rounds: comments `@rounds N` become loop marks."""
from __future__ import annotations

from pathlib import Path

import pytest
from fptools.testing.common import Tool
from fptools.flow.rounds_to_marks import NoLoop, with_marks

CASES = {
    "for (int i = 0; i < 4; i++) /* @rounds 4 */\n    f(i);\n": (
        "FP_LOOP(i, 4);\nfor (int i = 0; i < 4; i++)\n    { FP_ROUND(i); f(i); }\n"
    ),
    "    for (word index = 0; index < n; index++) { // @rounds 8\n        f(index);\n    }\n": (
        "    FP_LOOP(index, 8);\n    for (word index = 0; index < n; index++) { FP_ROUND(index);\n"
        "        f(index);\n    }\n"
    ),
    "while (n--) /* @rounds 16 */\n    ;\n": (
        "FP_LOOP(loop, 16);\nwhile (n--)\n    { FP_ROUND(loop); ; }\n"
    ),
    "do {\n    f();\n} while (n--); /* @rounds 16 */\n": (
        "FP_LOOP(loop, 16);\ndo { FP_ROUND(loop);\n    f();\n} while (n--);\n"
    ),
    "if (a)\n    for (i = 0; i < n; i++) { /* @rounds 3 */ f(); }\nelse g();\n": (
        "if (a)\n    { FP_LOOP(i, 3); for (i = 0; i < n; i++) { FP_ROUND(i); f(); } }\nelse g();\n"
    ),
    "for (;;) { /* @rounds 5 */\n    if (f()) break;\n}\n": (
        "FP_LOOP(loop, 6);\nfor (;;) { FP_ROUND(loop);\n    if (f()) break;\n}\n"
    ),
    "/* @rounds 4 */\nfor (i = 0; i < n; i++) f();\n": (
        "\nFP_LOOP(i, 4);\nfor (i = 0; i < n; i++) { FP_ROUND(i); f(); }\n"
    ),
    "again:\n    f();\n    if (g()) goto again; /* @rounds 3 */\n": (
        "FP_LOOP(loop, 4); again: FP_ROUND(loop);\n    f();\n    if (g()) goto again;\n"
    ),
    'for (i = 0; "while (}"[i]; i++) /* @rounds 8 */ f(")"); /* for */\n': (
        'FP_LOOP(i, 8);\nfor (i = 0; "while (}"[i]; i++) { FP_ROUND(i); f(")"); } /* for */\n'
    ),
    "for (i = 0; i < n; i++) for (k = 0; k < n; k++) f(); /* @rounds 4 */\n": (
        "for (i = 0; i < n; i++) { FP_LOOP(k, 4); for (k = 0; k < n; k++) { FP_ROUND(k); f(); } }\n"
    ),
    "for (i = 0; i < n; i++) /* @rounds 3 */\n"
    "    for (k = 0; k < n; k++) /* @rounds 4 */\n        f();\n": (
        "FP_LOOP(i, 3);\nfor (i = 0; i < n; i++)\n    { FP_ROUND(i); { FP_LOOP(k, 4); "
        "for (k = 0; k < n; k++)\n        { FP_ROUND(k); f(); } } }\n"
    ),
    "{ for (i = 0; i < n; i++) f(); /* @rounds 2 */\n"
    " for (i = 0; i < n; i++) f(); /* @rounds 3 */ }\n": (
        "{ FP_LOOP(i, 2); for (i = 0; i < n; i++) { FP_ROUND(i); f(); }\n "
        "FP_LOOP(i2, 3);\n for (i = 0; i < n; i++) { FP_ROUND(i2); f(); } }\n"
    ),
}


@pytest.mark.parametrize("given", CASES)
def test_comments_become_marks(given: str) -> None:
    assert with_marks(given) == CASES[given]


def test_a_source_without_comments_stays() -> None:
    text = 'for (;;) f("/* @rounds N */"); /* rounds 4 */\n'
    assert with_marks(text) == text


@pytest.mark.parametrize("quote", ['"', "'"])
def test_a_comment_in_a_string_is_none(quote: str) -> None:
    text = f"for (i = 0; i < n; i++) {{ msg = {quote}/* @rounds 4 */{quote}; f(); }}\n"
    assert with_marks(text) == text
    marked = "FP_LOOP(i, 3);\n" + text.replace("{ ", "{ FP_ROUND(i); ")
    assert with_marks(text.replace("\n", " /* @rounds 3 */\n")) == marked


def test_a_comment_of_no_loop() -> None:
    with pytest.raises(NoLoop) as why:
        with_marks("int a;\nf(); /* @rounds 4 */\n")
    assert why.value.line == 2


def test_the_tool(tool: Tool, tmp_path: Path) -> None:
    good, bad = tmp_path / "good.c", tmp_path / "bad.c"
    good.write_bytes(b"/* \xe4 */ while (n--) /* @rounds 3 */ f();\n")
    bad.write_text("f(); /* @rounds 4 */\n")
    made = b"/* \xe4 */ FP_LOOP(loop, 3); while (n--) { FP_ROUND(loop); f(); }\n"
    ran = tool("fp_rewrite_rounds", bad)
    assert (ran.returncode, ran.stdout) == (1, "")
    assert f"fp_rewrite_rounds: {bad}:1: no loop is found" in ran.stderr
    ran = tool("fp_rewrite_rounds", "--in-place", bad, good)
    assert (ran.returncode, bad.read_text()) == (1, "f(); /* @rounds 4 */\n")
    assert good.read_bytes() == made
    ran = tool("fp_rewrite_rounds", tmp_path / "none.c")
    assert (ran.returncode, ran.stdout) == (2, "") and "none.c" in ran.stderr
