"""The pages of fp_report that tests look at."""
from __future__ import annotations

import os
from pathlib import Path

import pytest
from fptools.testing.common import BUILT, TOP, Tool
from fptools.testing.modelled import program
from fptools.report.tests.pages import PID, RUN


@pytest.fixture(scope="module")
def reporting(tmp_path_factory: pytest.TempPathFactory) -> Tool:
    """Runs a tool at the top of the repository, with the program; without one, with the model in its place."""
    built = os.environ.get("FLEXPRET") or str(BUILT)
    return Tool(
        TOP, built if os.access(built, os.X_OK) else str(program(tmp_path_factory.mktemp("model")))
    )


@pytest.fixture(scope="module")
def pid_page(reporting: Tool, tmp_path_factory: pytest.TempPathFactory) -> Path:
    out = tmp_path_factory.mktemp("page") / "report.html"
    ran = reporting("fp_report", *PID, *RUN, "-o", out)
    line = "holds    T0 a step of the controller: 352 of 400 cycles (3520 ns); the longest of 12 executions takes 344\n"
    assert (ran.returncode, ran.stdout, ran.stderr) == (0, line, "")
    return out
