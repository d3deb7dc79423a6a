"""decode.txt and gnu.txt, compared with GNU as and GNU ld: the words that these make of the same text."""

import re
import tempfile
from collections.abc import Iterator, Sequence
from pathlib import Path

from model.instructions import Ins, decode
from model.bits import bits, signed
from model.tables.forms import Row, number, rows
from model.tables.tools import assembled, linked, sections

ARCH = "rv32im_zicsr_zifencei"
FENCE_I = 0x0000100F
FENCE_SETS = "iorw"


def fence_text(word: int) -> str | None:
    """A fence with its sets; None where the word has other fields that aren't 0."""
    if word == FENCE_I:
        return "fence.i"
    sets = [
        "".join(letter for k, letter in enumerate(FENCE_SETS) if bits(word, high - k, high - k))
        for high in (27, 23)
    ]
    has_others = bits(word, 31, 28) or bits(word, 19, 7)
    return None if has_others or not all(sets) else f"fence {sets[0]},{sets[1]}"


def csr_text(x: Ins) -> str:
    source = x.rs1 if x.op.endswith("i") else f"x{x.rs1}"
    return f"csr{x.op.lower()} x{x.rd},{x.csr:#x},{source}"


def text_of(x: Ins) -> str | None:
    """The text of an instruction as GNU as reads it; None where it has none."""
    op, rd, rs1, rs2 = (x.op or x.kind).lower(), f"x{x.rd}", f"x{x.rs1}", f"x{x.rs2}"
    match x.kind:
        case "Lui" | "Auipc":
            return f"{op} {rd},{x.imm:#x}"
        case "Jal":
            return f"{op} {rd},.+({x.imm})"
        case "Branch":
            return f"{op} {rs1},{rs2},.+({x.imm})"
        case "Load" | "Jalr":
            return f"{op} {rd},{x.imm}({rs1})"
        case "Store":
            return f"{op} {rs2},{x.imm}({rs1})"
        case "OpImm" | "Shift":
            return f"{op} {rd},{rs1},{x.imm}"
        case "Op" | "Muldiv":
            return f"{op} {rd},{rs1},{rs2}"
        case "Csr":
            return csr_text(x)
        case "Fence":
            return fence_text(x.imm)
        case "Ecall" | "Ebreak" | "Mret":
            return op
    return None


def sectioned(lines: Sequence[str]) -> str:
    """A source with each line in a section of its own."""
    return "".join(f'.section .r{k},"ax"\n{line}\n' for k, line in enumerate(lines))


def compared(found: Sequence[tuple[str, bytes]], made: dict[str, bytes]) -> Iterator[Row]:
    """Rows with the bytes of their sections."""
    for k, (name, wanted) in enumerate(found):
        got = made.get(f".r{k}", b"")
        yield name, "" if got == wanted else f"GNU has {got.hex()} for {wanted.hex()}"


def decode_rows() -> Iterator[Row]:
    """The words of decode.txt with those that GNU as makes of the text of their instructions."""
    words = [int(call.split()[1], 16) for _, call in rows("decode.txt")]
    texts = [(word, text_of(decode(word))) for word in words]
    yield from ((f"{word:08x}", None) for word, text in texts if text is None)
    with_text = [(word, text) for word, text in texts if text is not None]
    with tempfile.TemporaryDirectory() as folder:
        name = assembled(Path(folder), sectioned([text for _, text in with_text]), ARCH)
        made = sections((Path(folder) / name).read_bytes())
    yield from compared([(text, word.to_bytes(4, "little")) for word, text in with_text], made)


LINE = re.compile(r"\.org (0x[0-9a-f]+)\\n(.*)")
ANSWER = re.compile(r"image ([0-9a-f]+):([0-9a-f]*);")
BRANCH = re.compile(r"(b[a-z]+ .*), ?([0-9a-fx]+)")


def near(address: int, text: str) -> str:
    """A line in which a branch has its distance: GNU as makes two instructions of a branch to a number."""
    found = BRANCH.fullmatch(text)
    return f"{found[1]}, .+({signed(number(found[2]) - address)})" if found else text


def source_rows() -> Iterator[Row]:
    """The lines of gnu.txt with the words of GNU as and GNU ld for them at the same addresses."""
    lines, wanted = [], []
    for answer, call in rows("gnu.txt"):
        line, image = LINE.fullmatch(call), ANSWER.fullmatch(answer)
        assert line and image and int(line[1], 16) == int(image[1], 16), call
        address = int(line[1], 16)
        lines.append((address, near(address, line[2])))
        wanted.append((line[2], bytes.fromhex(image[2])))
    with tempfile.TemporaryDirectory() as folder:
        made = sections(
            linked(Path(folder), sectioned([text for _, text in lines]), ARCH, script(lines))
        )
    yield from compared(wanted, made)


def script(lines: Sequence[tuple[int, str]]) -> str:
    """A linker script with the section of each line at its address."""
    sections = "".join(
        f".r{k} {address:#x} : {{ *(.r{k}) }}\n" for k, (address, _) in enumerate(lines)
    )
    return f"SECTIONS {{ {sections} }}"
