"""The statuses are those of the model, which has its own list."""
from __future__ import annotations

from fptools.limits import MOST_CYCLES
from fptools.program.status import CANNOT, Status

from model import setups
from model.commands import Status as OfModel


def test_statuses_and_limits_are_the_models() -> None:
    ours, theirs = ({it.name: int(it) for it in every} for every in (Status, OfModel))
    assert ours == theirs
    assert CANNOT == Status.USAGE
    assert MOST_CYCLES == setups.MOST_CYCLES
