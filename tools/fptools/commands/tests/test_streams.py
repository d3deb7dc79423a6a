"""Tools take the answer from standard output, whatever the program or its script says on standard error."""
from __future__ import annotations

from pathlib import Path

import pytest
from fptools.testing.common import TOP, Tool
from fptools.testing.modelled import program

WARNING = "flexpret: warning: 00000010: the visit ends there"
SUM = ("examples/sum.toml", "--section", "visit=0x10:0x3c", "--cycles", "816")


def warns(folder: Path) -> Path:
    """The model, which warns about each bound as the script does."""
    script, model = folder / "warns", program(folder)
    script.write_text(
        f'#!/bin/sh\ncase $1 in bound | calls) echo "{WARNING}" >&2 ;; esac\nexec {model} "$@"\n'
    )
    script.chmod(0o755)
    return script


def budgets(folder: Path, *tables: tuple[str, str]) -> Path:
    """A file of budgets of sections."""
    file = folder / "budgets.toml"
    text = '[[budget]]\nname = "it"\nthread = 0\nfrom = {}\nto = {}\ncycles = 1000\nassume = ["moved work", "loop tables"]\n'
    file.write_text("".join(text.format(*it) for it in tables))
    return file


def test_a_warning_does_not_hide_a_bound(tool: Tool, tmp_path: Path) -> None:
    table = ("0x10", "0x3c")
    ran = tool(
        "fp_budget",
        "examples/sum.toml",
        budgets(tmp_path, table, table),
        "--flexpret",
        warns(tmp_path),
    )
    assert (ran.returncode, ran.stdout) == (0, "holds    T0 it: 184 of 1000 cycles (1840 ns)\n" * 2)
    assert ran.stderr.splitlines().count(WARNING) == 1
    ran = tool("fp_visits", *SUM, "--flexpret", warns(tmp_path))
    assert (ran.returncode, ran.stderr) == (0, f"{WARNING}\n")
    assert "1.00" in next(line for line in ran.stdout.splitlines() if line.startswith("visit "))


def test_a_refusal_is_named_without_what_explains_it(tool: Tool, tmp_path: Path) -> None:
    ran = tool(
        "fp_budget",
        "examples/sum.toml",
        budgets(tmp_path, ("0x10", "0x44")),
        "--flexpret",
        warns(tmp_path),
    )
    assert (ran.returncode, WARNING in ran.stdout + ran.stderr) == (2, False)
    assert ran.stdout.startswith("UNKNOWN  T0 it: status 6: refused bound 3 TimedWait 00000040: ")


def test_a_program_that_only_writes_standard_error(tool: Tool, tmp_path: Path) -> None:
    script = tmp_path / "fails"
    script.write_text("#!/bin/sh\necho flexpret: out of memory >&2\nexit 9\n")
    script.chmod(0o755)
    ran = tool(
        "fp_budget", "examples/sum.toml", budgets(tmp_path, ("0x10", "0x3c")), "--flexpret", script
    )
    assert (ran.returncode, ran.stdout) == (
        2,
        "UNKNOWN  T0 it: status 9: flexpret: out of memory\n",
    )


@pytest.mark.parametrize("kind", ["flexpret", "script"])
def test_program_and_script_give_the_same_answers(
    request: pytest.FixtureRequest, tmp_path: Path, kind: str
) -> None:
    """Of a section about which the script warns, and of one that is refused, which it explains."""
    asking = Tool(TOP, request.getfixturevalue(kind))
    file = budgets(tmp_path, ("0x108", "0x110"))
    file.write_text(file.read_text() + "exits = [0x124]\n")
    ran = asking("fp_budget", "examples/traps.toml", file)
    assert (ran.returncode, ran.stdout) == (0, "holds    T0 it: 8 of 1000 cycles (80 ns)\n")
    said = "the section is left for 00000124, and the bound ends there"
    assert (said in ran.stderr) == (kind == "script")
    ran = asking("fp_budget", "examples/sum.toml", budgets(tmp_path, ("0x10", "0x44")))
    assert ran.returncode == 2
    assert ran.stdout.startswith("UNKNOWN  T0 it: status 6: refused bound 3 TimedWait 00000040: ")
