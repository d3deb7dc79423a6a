"""The calls of fp_view that tests make."""
from __future__ import annotations

import os

import pytest
from fptools.testing.common import Tool
from fptools.view.tests.views import BUILT


@pytest.fixture(scope="session")
def view() -> str:
    """The view that FLEXPRET_VIEW names, or the built one."""
    program = os.environ.get("FLEXPRET_VIEW") or str(BUILT)
    if not os.access(program, os.X_OK):
        pytest.skip("no view: build it by ./flexpret-view, or name it by FLEXPRET_VIEW")
    return program


@pytest.fixture
def viewing(asking: Tool, view: str) -> Tool:
    """Runs a tool that may ask the program and the view."""
    asking.environment["FLEXPRET_VIEW"] = view
    return asking
