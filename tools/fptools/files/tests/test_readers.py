"""The package's readers of setups and of the program's answers, as tools/README.md lists them."""
from __future__ import annotations

from pathlib import Path

import pytest
from fptools.testing.common import TOP
from fptools.program.answers import Bound, NoAnswer, Refusal, read_answer
from fptools.files.lint import read_valid
from fptools.program.calls import Answer
from fptools.files.setup import LoopTable, ThreadTable


def test_a_setup_is_data(tmp_path: Path) -> None:
    """The setup of docs/FORMATS.md, which has each key."""
    text = (TOP / "docs/FORMATS.md").read_text().split("```toml\n")[1].split("```")[0]
    path = tmp_path / "it.toml"
    path.write_text(text)
    setup = read_valid(path)
    assert (setup.period, setup.image, setup.size) == (10, Path("examples/drive.fpx"), 16_384)
    assert setup.slots == ["T0", "S", "T1", "S", "D", "D", "D", "D"]
    first = ThreadTable(0, "hard", 0, True, False, None, ((0, 42), (50, 43)))
    assert setup.threads == [first, ThreadTable(4, "soft", 0x100, False, False, None, ())]
    assert setup.loops == [LoopTable(0x10, 0x38, 1000)]
    assert setup.thread(0) == first and setup.thread(7) is None and not setup.has_permits


def test_a_setup_that_is_refused_is_told_with_its_line(tmp_path: Path) -> None:
    path = tmp_path / "it.toml"
    path.write_text((TOP / "examples/sum.toml").read_text().replace("bound = 7", "bound = -1"))
    with pytest.raises(ValueError, match=r"it\.toml:\d+: loop\[0\]\.bound: -1 is less than"):
        read_valid(path)


@pytest.mark.parametrize(
    ("text", "answer"),
    [
        ("bound 184\n", Bound(184)),
        (
            "refused setup 6 OutOfRange thread[2].entry",
            Refusal("setup", 6, "OutOfRange", "thread[2].entry"),
        ),
        ("refused setup 2 Toml -", Refusal("setup", 2, "Toml", "-")),
        ("refused section 1 NotHard", Refusal("section", 1, "NotHard", "")),
        ("refused image 3 Truncated 12", Refusal("image", 3, "Truncated", "12")),
        ("refused source 4 3 UnknownName", Refusal("source", 3, "UnknownName", "4")),
        ("refused bound 2 IndirectJump 00000044", Refusal("bound", 2, "IndirectJump", "00000044")),
        ("refused routines 3 2 BadLine", Refusal("routines", 2, "BadLine", "3")),
    ],
)
def test_an_answer_is_a_bound_or_a_refusal(text: str, answer: Bound | Refusal) -> None:
    assert read_answer(text) == answer
    assert Answer(0, text.strip()).bound == (184 if isinstance(answer, Bound) else None)


def test_the_word_without_a_bound_has_an_address() -> None:
    for text, address in (
        ("refused bound 2 IndirectJump 00000044", 0x44),
        ("refused bound 6 Overflow 18446744073709551616", None),
        ("refused image 3 Truncated 00000012", None),
    ):
        found = read_answer(text)
        assert isinstance(found, Refusal) and found.address == address


@pytest.mark.parametrize(
    "text", ["", "bound", "bound x", "refused", "refused source 4 3", "flexpret: usage"]
)
def test_another_text_is_no_answer(text: str) -> None:
    with pytest.raises(NoAnswer, match="neither a bound nor a refusal"):
        read_answer(text)
    assert Answer(2, text).bound is None
