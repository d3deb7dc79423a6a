"""The text of instruction words, by an objdump that knows RISC-V; the timing instructions are the core's own."""

import re
import shutil
import subprocess
import tempfile
from pathlib import Path
from typing import Mapping

from fptools.files.elf import CODE_END
from fptools.isa.words import OPCODE_TIMING, Word

TOOLS = (
    "riscv64-unknown-elf-objdump",
    "riscv32-unknown-elf-objdump",
    "riscv64-linux-gnu-objdump",
    "llvm-objdump",
)
REGISTERS = (
    "zero ra sp gp tp t0 t1 t2 s0 s1 a0 a1 a2 a3 a4 a5 a6 a7 s2 s3 s4 s5 s6 s7 s8 s9 s10 s11 t3 t4 t5 t6"
).split()
# Mnemonics by funct3, and which registers are shown.
TIMING = {
    0: "gt {rd}",
    1: "gth {rd}",
    2: "du {rs1}, {rs2}",
    3: "wu {rs1}, {rs2}",
    4: "ee {rs1}, {rs2}",
    5: "de",
}
# A line of an objdump: the address, four bytes in one or two spellings, and the text.
SHOWN = re.compile(r"\s*([0-9a-f]+):\s+(?:[0-9a-f]{8}|[0-9a-f]{2}(?: [0-9a-f]{2}){3})\s+(\S.*)")

# How an objdump begins the text of a word that it doesn't know.
UNKNOWN = (".", "<")


def find_tool() -> str | None:
    """The first objdump for RISC-V that is installed."""
    return next((found for name in TOOLS if (found := shutil.which(name))), None)


def timing_text(word: Word) -> str | None:
    """The text of a timing instruction."""
    if word.opcode != OPCODE_TIMING or not word.is_code:
        return None
    fields = {name: REGISTERS[getattr(word, name)] for name in ("rd", "rs1", "rs2")}
    return TIMING[word.funct3].format(**fields)


class Disassembler:
    """Texts of words; without a tool, a word is its own text."""

    def __init__(self, tool: str | None) -> None:
        self.tool = tool
        self._known: dict[tuple[int, int], str] = {}

    def learn(self, words: Mapping[int, int]) -> None:
        """Has the texts of words of code, by address, made in one call of the tool."""
        new = {at: bits for at, bits in words.items() if (at, bits) not in self._known}
        code = {at: bits for at, bits in new.items() if at < CODE_END}
        shown = self._shown(code) if code and self.tool else {}
        for at, bits in new.items():
            self._known[at, bits] = timing_text(Word(at, bits)) or shown.get(at) or f"{bits:#010x}"

    def text(self, pc: int, bits: int) -> str:
        if (pc, bits) not in self._known:
            self.learn({pc: bits})
        return self._known[pc, bits]

    def _shown(self, words: Mapping[int, int]) -> dict[int, str]:
        """The tool's output for words, by address."""
        data = bytearray(max(words) + 4)
        for at, bits in words.items():
            data[at : at + 4] = bits.to_bytes(4, "little")
        with tempfile.TemporaryDirectory() as folder:
            lines = self._dump(Path(folder), bytes(data)).splitlines()
        found = (SHOWN.fullmatch(line) for line in lines)
        texts = {
            int(it[1], 16): _plain(it[2]) for it in found if it and not it[2].startswith(UNKNOWN)
        }
        return {at: text for at, text in texts.items() if at in words}

    def _dump(self, folder: Path, data: bytes) -> str:
        assert self.tool
        raw, made = folder / "code.bin", folder / "code.o"
        raw.write_bytes(data)
        if "llvm" not in Path(self.tool).name:
            return _output(self.tool, "-D", "-z", "-b", "binary", "-m", "riscv:rv32", str(raw))
        copy = self.tool.replace("objdump", "objcopy")
        _output(copy, "-I", "binary", "-O", "elf32-littleriscv", str(raw), str(made))
        return _output(self.tool, "-D", "-z", "-j", ".data", "--mattr=+m", str(made))


def _output(*words: str) -> str:
    return subprocess.run(words, check=True, capture_output=True, text=True).stdout


def _plain(text: str) -> str:
    """A text in one spelling, without symbols and comments of the tool's own."""
    bare = re.sub(r"\s*(<.+>|#.*)$", "", text)
    return re.sub(r",\s*", ", ", re.sub(r"\s+", " ", bare)).strip()
