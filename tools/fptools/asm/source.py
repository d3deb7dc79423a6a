"""Sources of the assembler: where each word of an image comes from, and the texts of words.

Tokens, mnemonics and faults are those of the program's assembler, as docs/FORMATS.md has them; tests compare the two."""

import os
import re
from collections import Counter
from dataclasses import dataclass
from pathlib import Path
from typing import Iterator, Mapping

from fptools.asm.places import Label, Placed
from fptools.isa.encodings import FENCE, FENCE_I, decode, get, target
from fptools.limits import LARGE

LABEL = re.compile(r"[A-Za-z_.][A-Za-z0-9_.]*")
TEXTS = {"dis": "{d}, {i}({s})", "tos": "{t}, {o}({s})"}
"""How operands are written, where a comma isn't between all of them."""


@dataclass(frozen=True)
class Source:
    """A source that the assembler takes: its lines, labels, and the words that each line places."""

    path: Path
    texts: list[str]
    labels: list[Label]
    placed: list[tuple[int, int, tuple[int, ...]]]  # line, address, words

    @property
    def words(self) -> dict[int, int]:
        return {
            at + 4 * index: word for _, at, words in self.placed for index, word in enumerate(words)
        }


def read_source(path: Path) -> Source:
    """A source with its words. A fault is a `SourceFault`."""
    found = Placed(path.read_bytes())
    texts = [text.decode("utf-8", "replace") for text in found.texts]
    return Source(path, texts, found.labels, found.words)


def listing(source: Source) -> Iterator[str]:
    """The lines of a listing: line, address, word and text of the source; a line that places more words
    has more lines. The labels follow, by their addresses."""
    of_line = {number: (at, words) for number, at, words in source.placed}
    at_label = {label.line: label.address for label in source.labels}
    for number, text in enumerate(source.texts, 1):
        at, words = of_line.get(number, (at_label.get(number), ()))
        address = "" if at is None else f"{at:08x}"
        first = f"{words[0]:08x}" if words else ""
        yield f"{number:>5} {address:<8} {first:<8}  {text}".rstrip()
        yield from (
            f"{number:>5} {(at or 0) + 4 * index:08x} {word:08x}"
            for index, word in enumerate(words[1:], 1)
        )
    if source.labels:
        yield ""
        yield from (
            f"{label.address:08x} {label.name}"
            for label in sorted(source.labels, key=lambda it: (it.address, it.name))
        )


def map_lines(source: Source, folder: Path) -> Iterator[str]:
    """The lines of a map in a folder: for each line of the source with labels or words its first
    address, its number and its labels."""
    yield f"# map of {os.path.relpath(source.path, folder)}: address, line, labels"
    names: dict[tuple[int, int], list[str]] = {(at, number): [] for number, at, _ in source.placed}
    for label in source.labels:
        names.setdefault((label.address, label.line), []).append(label.name)
    for (at, number), labels in sorted(names.items()):
        yield " ".join([f"{at:08x}", str(number), *labels])


# ---------------------------------------------------------------- texts of words


def target_of(pc: int, bits: int) -> int | None:
    """Where a branch or JAL leads; None for other words, and for a target that no source can have."""
    to = target(pc, bits) if decode(bits) else None
    return to if to is not None and to % 4 == 0 else None


def text_of(pc: int, bits: int, names: Mapping[int, str] | None = None) -> str:
    """The text of a word at its address, which the assembler reads back; targets by their names, where
    these have one."""
    form = decode(bits)
    if form is None or (form.name.startswith("fence") and bits not in (FENCE, FENCE_I)):
        return _as_word(bits)
    shown = {
        letter: f"x{get(letter, bits)}" if letter in "dst" else str(get(letter, bits))
        for letter in form.operands
    }
    if "c" in shown:
        shown["c"] = f"{get('c', bits):#05x}"
    if form.operands in ("stb", "dj"):
        to = target_of(pc, bits)
        if to is None:
            return _as_word(bits)
        shown[form.operands[-1]] = (names or {}).get(to, f"{to:#010x}")
    return f"{form.name} {TEXTS.get(form.operands, ', '.join(shown.values())).format(**shown)}".rstrip()


def _as_word(bits: int) -> str:
    return f".word {bits:#010x}"


def usable(names: Mapping[int, str]) -> dict[int, str]:
    """The names that a source can have as labels: of its letters, and each once."""
    times = Counter(names.values())
    return {at: name for at, name in names.items() if times[name] == 1 and LABEL.fullmatch(name)}


def disassembled(words: Mapping[int, int], names: Mapping[int, str]) -> Iterator[str]:
    """An image as a source: the assembler makes the same words of it. Targets without a name get one by
    their address."""
    code = {at: bits for at, bits in words.items() if at < LARGE}
    targets = {
        to for at, bits in code.items() if (to := target_of(at, bits)) is not None and to in words
    }
    own = usable(names)
    called = {**{to: f"L_{to:08x}" for to in targets}, **own}
    location, zeros = 0, 0  # bytes of zeros that aren't written yet
    for at, bits in sorted(words.items()):
        if zeros and (bits or at != location or at in called):
            yield f"        .space {zeros}"
            zeros = 0
        if at != location:
            yield f"        .org {at:#010x}"
        if at in called:
            yield f"{called[at]}:"
        location = at + 4
        if bits == 0:
            zeros += 4
            continue
        text = text_of(at, bits, called) if at in code else _as_word(bits)
        yield f"        {text:<32}# {at:08x} {bits:08x}"
    if zeros:
        yield f"        .space {zeros}"
