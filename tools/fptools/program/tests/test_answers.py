"""What counts as an answer of the program."""
from __future__ import annotations

import pytest
from fptools.program.answers import Bound, NoAnswer
from fptools.program.calls import Answer


def test_a_bound_of_a_program_that_succeeds() -> None:
    assert Answer(0, "bound 24").read() == Bound(24) and Answer(0, "bound 24").bound == 24


@pytest.mark.parametrize(
    "answer", [Answer(3, "bound 1"), Answer(-9, "bound 1"), Answer(0, "bound \u0661")]
)
def test_what_is_no_bound(answer: Answer) -> None:
    """A program that fails has no bound, whatever it wrote; and digits are those of ASCII."""
    assert answer.bound is None
    with pytest.raises(NoAnswer):
        answer.read()
