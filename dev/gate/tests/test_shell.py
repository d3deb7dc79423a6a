"""Each script of bash is as shellcheck wants it."""
from __future__ import annotations

import subprocess
from pathlib import Path

import pytest
from fptools.testing.common import TOP
from dev.gate.tests.test_types import pinned

SHELLCHECK = "0.9.0"
"""The version of Debian 12."""


def scripts() -> list[str]:
    """The repository's scripts of bash, by their names at the top."""
    found = [TOP / name for name in ("test", "flexpret", "flexpret-view", ".ci/run")]
    for pattern in ("*.sh", "*.bash"):
        found += [it for it in TOP.rglob(pattern) if "out" not in it.parts]
    return sorted(str(it.relative_to(TOP)) for it in found)


@pytest.mark.parametrize("script", scripts())
def test_shellcheck_finds_nothing(script: str) -> None:
    shellcheck = pinned("shellcheck", "shellcheck", SHELLCHECK)
    ran = subprocess.run(
        [shellcheck, "-x", "-P", "SCRIPTDIR", script],
        cwd=TOP,
        capture_output=True,
        text=True,
        check=False,
    )
    assert (ran.returncode, ran.stdout) == (0, "")


@pytest.mark.parametrize("script", scripts())
def test_a_script_names_its_shell(script: str) -> None:
    with Path(TOP / script).open() as text:
        assert text.readline().startswith(("#!/usr/bin/env bash", "#!/bin/sh", "# "))
