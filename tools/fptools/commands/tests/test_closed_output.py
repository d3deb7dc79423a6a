"""A call whose standard output is closed ends with one line and status 2."""
from __future__ import annotations

import subprocess

import pytest
from fptools.testing.common import TOOLS


@pytest.mark.parametrize("name", ["fp_budget", "fp_stack", "fp_visits", "fp_loops"])
def test_closed_standard_output(name: str) -> None:
    call = ["sh", "-c", f'exec "{TOOLS / name}" nothing >&-']
    ran = subprocess.run(call, capture_output=True, text=True, check=False)
    assert ran.returncode == 2 and ran.stderr == f"{name}: standard output is closed\n", ran
