"""The sizes of files and functions, and whether something names each script of dev."""
from __future__ import annotations

import ast
import re
from collections.abc import Iterator
from pathlib import Path

from fptools.testing.common import TOP

MOST_LINES, MOST_LINES_OF_FUNCTION, MOST_PARAMETERS = 500, 40, 8
FILES = [
    it
    for name in ("tools", "dev", "model", "examples", "rtl")
    for it in sorted((TOP / name).rglob("*.py"))
]
LONG = {"dev/fuzz/hostile.py"}
"""Files that are longer. That of dev is a table of inputs."""

LONG_FUNCTIONS = {"tools/fptools/visits/tests/test_meters.py: executions"}
"""Functions that are longer: the definition of a visit, which is read in one place."""


def functions(file: Path) -> Iterator[ast.FunctionDef]:
    return (it for it in ast.walk(ast.parse(file.read_text())) if isinstance(it, ast.FunctionDef))


def test_files_are_short() -> None:
    found = {
        str(it.relative_to(TOP)) for it in FILES if len(it.read_text().splitlines()) > MOST_LINES
    }
    assert found == LONG


def test_functions_are_short_and_have_few_parameters() -> None:
    found = []
    for file in FILES:
        for it in functions(file):
            lines = (it.end_lineno or it.lineno) - it.lineno + 1
            parameters = it.args.posonlyargs + it.args.args + it.args.kwonlyargs
            if lines > MOST_LINES_OF_FUNCTION or len(parameters) > MOST_PARAMETERS:
                found.append(f"{file.relative_to(TOP)}: {it.name}")
    assert set(found) == LONG_FUNCTIONS


def test_each_script_of_dev_is_named() -> None:
    """By a page, another script or a test: as a file, or by an import."""
    pages = [*(TOP / "docs").rglob("*.md"), *TOP.glob("*/README.md"), *TOP.glob("dev/*/*.sh")]
    named: dict[str, set[Path]] = {}
    for file in [*FILES, *pages]:
        for word in re.findall(r"(?:dev[./])?(?:\w+[./])*\w+", file.read_text()):
            named.setdefault(word.replace("/", "."), set()).add(file)
        for folder, names in re.findall(r"from (dev\.\w+) import (.*)", file.read_text()):
            for name in names.split(", "):
                named.setdefault(f"{folder}.{name}", set()).add(file)
    for script in sorted(it for form in ("py", "sh") for it in TOP.glob(f"dev/*/*.{form}")):
        module, form = f"dev.{script.parent.name}.{script.stem}", script.suffix
        users = (
            named.get(module, set())
            | named.get(module + form, set())
            | named.get(script.name, set())
        )
        assert (
            users - {script} or script.stem == "__init__"
        ), f"nothing names {script.relative_to(TOP)}"
