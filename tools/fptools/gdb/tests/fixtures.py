"""The sessions of gdb that tests have."""
from __future__ import annotations

from pathlib import Path

import pytest
from fptools.testing.common import TOP
from fptools.gdb.tests.sessions import PID


@pytest.fixture
def own(tmp_path: Path) -> Path:
    """A setup of the test's own, by which its processes are found."""
    setup = tmp_path / "own.toml"
    setup.write_text((TOP / PID).read_text())
    return setup
