"""The reader of sources against the model's assembler, which was written apart: words, and first faults."""
from __future__ import annotations

from fptools.asm.places import Placed, SourceFault
from fptools.asm.statements import CSRS, OPERANDS, REGISTERS
from hypothesis import given, settings
from hypothesis import strategies as st

from model import assembler

NUMBERS = "0 -1 2047 2048 -2048 -2049 31 32 1048575 1048576 0x10 4 4294967295 4294967296 16384 16388".split()
VALUES = "l1 l2 l3 l1+4 l2-8 0x10 12 2 -4 nolabel".split()
OPERAND = {
    "r": st.sampled_from(list(REGISTERS)),
    "n": st.sampled_from(NUMBERS),
    "v": st.sampled_from(VALUES),
    "c": st.sampled_from([*CSRS, "0x305", "4095", "4096"]),
    "m": st.builds("{}({})".format, st.sampled_from(NUMBERS), st.sampled_from(list(REGISTERS))),
}


@st.composite
def lines(draw: st.DrawFn) -> str:
    """A line with a mnemonic and its operands, maybe with labels, and maybe with a text in it that breaks it."""
    name: str = draw(st.sampled_from(sorted(OPERANDS)))
    operands = [draw(OPERAND[kind]) for kind in OPERANDS[name]]
    labels = draw(st.sampled_from(["", "", "l1: ", "l2:", "l3 :", "l1:l4:"]))
    text = f"{labels}{name} {', '.join(operands)}"
    at: int = draw(st.integers(0, len(text)))
    broken: str = draw(st.sampled_from(["", "", "", *",()+-q90%#: .", "0x"]))
    return text[:at] + broken + text[at:]


def wanted(data: bytes) -> tuple[int, str] | dict[int, int]:
    """The words of a source by the model, or its first fault. Segments aren't counted."""
    placer, words, number = assembler.Placer(), dict[int, int](), 0
    try:
        for number, text in enumerate(assembler.lines_of(data), 1):
            placer.take(number, text)
        encoder = assembler.Encoder(placer.labels)
        for line in placer.lines:
            number = line.number
            words.update((line.at + 4 * k, word) for k, word in enumerate(encoder.words(line)))
    except assembler.LineFault as fault:
        return number, fault.code.name
    return words


@settings(max_examples=1000, deadline=None)
@given(st.lists(lines(), min_size=1, max_size=5))
def test_sources_have_the_words_and_faults_of_the_model(texts: list[str]) -> None:
    data = "\n".join(texts).encode()
    found: tuple[int, str] | dict[int, int]
    try:
        found = {
            at + 4 * k: word for _, at, words in Placed(data).words for k, word in enumerate(words)
        }
    except SourceFault as fault:
        found = fault.line, fault.code.name
    assert found == wanted(data)
