"""The scripts in a repository of the test's own."""
from __future__ import annotations

from pathlib import Path

import pytest
from fptools.launch.tests.scripts import Checkout


@pytest.fixture
def checkout(tmp_path: Path) -> Checkout:
    return Checkout(tmp_path)


@pytest.fixture(params=[("flexpret", "flexpret_cli"), ("flexpret-view", "flexpret_view")])
def each_script(tmp_path: Path, request: pytest.FixtureRequest) -> Checkout:
    return Checkout(tmp_path, *request.param)
