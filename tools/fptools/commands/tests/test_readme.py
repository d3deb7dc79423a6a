"""Each command that tools/README.md shows writes what is shown, in a folder of the test's own."""
from __future__ import annotations

import os
import subprocess
import sys
from pathlib import Path

import pytest
from fptools.testing.common import TOP, TOOLS
from fptools.isa.disassembly import find_tool

INDENT, PROMPT = "    ", "    $ "


def shown() -> list[tuple[str, list[str]]]:
    """The commands in their order, each with the lines under it. A command may go on up to END."""
    blocks: list[tuple[str, list[str]]] = []
    is_open = is_input = False
    for line in (TOOLS / "README.md").read_text().splitlines():
        if is_input:
            blocks[-1] = f"{blocks[-1][0]}\n{line.removeprefix(INDENT)}", []
            is_input = line != f"{INDENT}END"
        elif line.startswith(PROMPT):
            blocks.append((line.removeprefix(PROMPT), []))
            is_open, is_input = True, line.endswith("<<'END'")
        elif is_open and (line.startswith(INDENT) or not line):
            blocks[-1][1].append(line.removeprefix(INDENT))
        else:
            is_open = False
    return [(command, "\n".join(lines).rstrip("\n").splitlines()) for command, lines in blocks]


def script_around(program: str, folder: Path) -> str:
    """The script ./flexpret around a program, as tools call it by default."""
    around = f'. {TOP}/examples/shown.bash; script_around "$1" "$2" "$3"'
    subprocess.run(["bash", "-c", around, "bash", program, folder, TOP], check=True)
    return str(folder / "flexpret")


@pytest.mark.parametrize("is_script", [False, True], ids=["program", "script"])
def test_each_command_writes_what_is_shown(flexpret: str, is_script: bool, tmp_path: Path) -> None:
    if find_tool() is None:
        pytest.skip("the page shows instructions by an objdump for RISC-V, and none is installed")
    program = flexpret
    if is_script:
        flexpret = script_around(program, tmp_path / "script")
    for name, target in (
        ("tools", TOOLS),
        ("examples", TOP / "examples"),
        ("flexpret", Path(flexpret).resolve()),
    ):
        (tmp_path / name).symlink_to(target)
    # The tools are run by the Python that runs the tests.
    (tmp_path / "bin").mkdir()
    (tmp_path / "bin/python3").write_text(f'#!/bin/sh\nexec {sys.executable} "$@"\n')
    (tmp_path / "bin/python3").chmod(0o755)
    environment = {
        **os.environ,
        "FLEXPRET": flexpret,
        "PATH": f"{tmp_path}/bin:{os.environ['PATH']}",
    }
    blocks = shown()
    assert len(blocks) == 10
    for command, lines in blocks:
        # What is installed is the program, not a script.
        environment["FLEXPRET"] = program if command.startswith("tools/install.sh") else flexpret
        ran = subprocess.run(
            ["bash", "-c", command],
            cwd=tmp_path,
            env=environment,
            stdout=subprocess.PIPE,
            stderr=subprocess.STDOUT,
            text=True,
            check=False,
        )
        # The installed script says which program FLEXPRET names.
        said = [line for line in ran.stdout.splitlines() if not line.startswith("flexpret: using ")]
        assert said == lines, command
