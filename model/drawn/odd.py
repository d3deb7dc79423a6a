"""Drawn worlds with raw words and odd addresses: ends of memory, pcs that wrap, frames of any
length, moments with high words, traps in a row."""

import random
from collections.abc import Callable, Sequence

from model.bits import word
from model.images import DATA, Image
from model.instructions import DE_FUNCT3, OP, TIMING, b_word, i_word, j_word, r_word, s_word
from model.registers import DREGIONS, IREGIONS, MCAUSE, MEPC, MHARTID, MODES, MSCRATCH, MTVEC, SLOTS
from model.setups import LARGE, SMALL, THREADS

THREAD_NAMES = [f"T{k}" for k in range(THREADS)]
REGION_NAMES = [*THREAD_NAMES, "shared", "readonly"]
MODE_NAMES = ["hard"] * 4 + ["soft"] * 3 + ["hard-asleep", "soft-asleep"]
CYCLES = [300, 700, 1500, 3000]
PERIODS = [1, 2, 7, 10, 64, 333, 999, 1000]
CODE_WORDS, DATA_WORDS, LAST_WORDS = 64, 16, 8
"""Words of code at a region's start, of data in every other region, and of code at memory's end."""

SYSTEM_WORDS = [0x73, 0x100073, *[0x30200073] * 3, 0x0000100F, 0x0FF0000F, 0x10500073]
"""ECALL, EBREAK, MRET, the fences, and WFI, which is illegal here."""

KINDS: dict[str, float] = {
    "upper": 8, "immediate": 12, "register": 10, "product": 8, "load": 12, "store": 10, "branch": 8,
    "jal": 2, "jalr": 2, "csr": 8, "timing": 10, "gt": 6, "system": 2, "raw": 1, "small": 8,
}  # fmt: skip
"""The kinds of words, with their frequencies."""

WEIGHT_OF_WRITES = 5
"""How often a word uses a configuration register, if code does so at all."""


class OddWorld:
    """A setup and an image of a seed, with the number of cycles that they are run for."""

    def __init__(self, seed: int) -> None:
        self.chance = chance = random.Random(f"odd {seed}")
        self.cycles = chance.choice(CYCLES)
        self.version = 2 if chance.random() < 0.3 else 1
        self.size = SMALL if self.version == 1 else LARGE
        self.region = self.size // 8
        self.period = chance.choice([*PERIODS, chance.randrange(1, 1001)])
        self.is_quiet = chance.random() < 0.4
        self.setup = "".join(f"{line}\n" for line in self._setup()).encode()
        self.image = self._image().written()

    # ------------------------------------------------------------ the setup

    def _setup(self) -> list[str]:
        chance = self.chance
        length = chance.randrange(0, 9)
        slots = [chance.choice([*THREAD_NAMES, "S"]) for _ in range(length)] + ["D"] * (8 - length)
        chance.shuffle(slots)
        lines = [f"version = {self.version}", f"period = {self.period}", 'image = "a.fpx"']
        lines += [f"slots = {listed(slots)}", f"i_regions = {listed(self._regions('readonly'))}"]
        lines += [f"d_regions = {listed(self._regions('shared'))}"]
        return lines + [line for k in range(THREADS) for line in self._thread(k)]

    def _regions(self, common: str) -> list[str]:
        chance = self.chance
        kinds = [REGION_NAMES if chance.random() < 0.5 else [common, f"T{k}"] for k in range(8)]
        return [chance.choice(it) for it in kinds]

    def _thread(self, k: int) -> list[str]:
        chance = self.chance
        start = chance.choice([k, k, k, chance.randrange(8)]) * self.region
        entry = start + 4 * chance.choice([0, 0, 0, 1, 2, chance.randrange(CODE_WORDS)])
        if chance.random() < 0.05:
            entry = self.size - 4
        mode = chance.choice(MODE_NAMES)
        lines = ["[[thread]]", f"id = {k}", f'mode = "{mode}"', f"entry = {entry}"]
        if chance.random() < 0.4:
            lines.append("confined = true")
        elif not self.is_quiet and chance.random() < 0.5:
            lines.append("permit = true")
        if chance.random() < 0.3:
            lines.append(f"unplug = {chance.choice([0, 1, 2, 3, chance.randrange(3000)])}")
        if chance.random() < 0.7:
            lines.append(f"inputs = [{self._inputs()}]")
        return lines

    def _inputs(self) -> str:
        chance, cycle = self.chance, -1
        pairs: list[str] = []
        for _ in range(chance.randrange(1, 12)):
            cycle += chance.randrange(1, 90)
            pairs.append(f"[{cycle}, {chance.getrandbits(32)}]")
        return ", ".join(pairs)

    # ------------------------------------------------------------ the image

    def _image(self) -> Image:
        words = self._words
        segments = [(k * self.region, words(CODE_WORDS)) for k in range(8)]
        segments.append((self.size - 4 * LAST_WORDS, words(LAST_WORDS)))
        for k in range(0, 8, 2):
            data = [self.chance.getrandbits(32) for _ in range(DATA_WORDS)]
            segments.append((DATA + k * self.region, bytes_of(data)))
        return Image(segments)

    def _words(self, count: int) -> bytes:
        return bytes_of([self._word() for _ in range(count)])

    # ------------------------------------------------------------ words

    def _register(self) -> int:
        return self.chance.choice([0, 1, 2, 3, 4, 5, 6, 7, 5, 6, 7])

    def _word(self) -> int:
        weights = KINDS | {"scheduling": 0 if self.is_quiet else WEIGHT_OF_WRITES}
        kind = self.chance.choices(list(weights), list(weights.values()))[0]
        makers: dict[str, Callable[[], int]] = {
            "upper": self._upper, "immediate": self._immediate, "register": self._register_word,
            "product": self._product, "load": self._load, "store": self._store,
            "branch": self._branch,
            "jal": self._jal, "jalr": self._jalr, "csr": self._csr, "scheduling": self._scheduling,
            "timing": self._timing, "gt": self._gt, "small": self._small,
            "system": lambda: self.chance.choice(SYSTEM_WORDS),
            "raw": lambda: self.chance.getrandbits(32),
        }  # fmt: skip
        return makers[kind]()

    def _upper(self) -> int:
        chance = self.chance
        last = 0x20000 + self.size // 4096 - 1
        pages = [0x20000 + chance.randrange(17), 0x40000, chance.randrange(17), 0x80000, 0xFFFFF]
        opcode = chance.choice([0x37, 0x37, 0x17])
        return chance.choice([*pages, last]) << 12 | self._register() << 7 | opcode

    def _immediate(self) -> int:
        chance = self.chance
        value = chance.choice([0, 1, -1, 4, 31, 0x41F, chance.randrange(-2048, 2048)])
        return i_word(0x13, self._register(), chance.randrange(8), self._register(), value)

    def _small(self) -> int:
        """A small number for a register: a moment, an offset or a place of code."""
        chance = self.chance
        moment = self.period * chance.randrange(40) % 2048
        value = chance.choice([moment, chance.randrange(2048), 4 * chance.randrange(64)])
        source = chance.choice([0, self._register()])
        return i_word(0x13, self._register(), 0, source, value)

    def _register_word(self) -> int:
        return self._calculation(self.chance.choice([0, 0, 0, 0x20]))

    def _product(self) -> int:
        return self._calculation(1)

    def _calculation(self, funct7: int) -> int:
        reg, funct3 = self._register, self.chance.randrange(8)
        return r_word(OP, reg(), funct3, reg(), reg(), funct7)

    def _offset(self, near: Sequence[int]) -> int:
        return self.chance.choice([*near, self.chance.randrange(-2048, 2048)])

    def _load(self) -> int:
        chance = self.chance
        funct3 = chance.choice([0, 1, 2, 2, 2, 4, 5, chance.randrange(8)])
        offset = self._offset([0, 0, 4, 8, 1, 2, 3, -4])
        return i_word(0x03, self._register(), funct3, self._register(), offset)

    def _store(self) -> int:
        chance = self.chance
        funct3 = chance.choice([0, 1, 2, 2, 2, chance.randrange(8)])
        offset = self._offset([0, 0, 4, 8, 1, 2, 3, -4])
        return s_word(funct3, self._register(), self._register(), offset)

    def _branch(self) -> int:
        chance = self.chance
        offset = chance.choice([8, 12, 16, -4, -8, -20, 6, 2, 40])
        funct3 = chance.choice([0, 1, 4, 5, 6, 7, chance.randrange(8)])
        return b_word(funct3, self._register(), self._register(), offset)

    def _jal(self) -> int:
        offset = self.chance.choice([8, 16, -8, -40, 6, self.region, -self.region])
        return j_word(self.chance.choice([0, 1, self._register()]), offset)

    def _jalr(self) -> int:
        chance = self.chance
        offset = chance.choice([0, 1, 2, 3, 4, -4, 64, 128])
        funct3 = chance.choice([0, 0, 0, 0, chance.randrange(8)])
        return i_word(0x67, self._register(), funct3, self._register(), offset)

    def _csr(self) -> int:
        chance = self.chance
        numbers = [MTVEC, MTVEC, MSCRATCH, MEPC, MEPC, MCAUSE, MHARTID, chance.randrange(4096)]
        return self._csr_word(chance.choice(numbers), [1, 2, 3, 5, 6, 7, chance.randrange(8)])

    def _scheduling(self) -> int:
        number = self.chance.choice([SLOTS, MODES, MODES, DREGIONS, IREGIONS])
        return self._csr_word(number, [1, 1, 2, 3, 5, 6, 7, 6, 7])

    def _csr_word(self, number: int, functs: Sequence[int]) -> int:
        chance = self.chance
        source = chance.choice([0, self._register(), chance.randrange(32)])
        return i_word(0x73, self._register(), chance.choice(functs), source, number)

    def _timing(self) -> int:
        chance = self.chance
        if chance.random() < 0.15:
            return r_word(TIMING, funct3=DE_FUNCT3)
        high = chance.choice([0, 0, 0, self._register()])
        return r_word(TIMING, 0, chance.choice([2, 3, 3, 4, 4, 5]), high, self._register())

    def _gt(self) -> int:
        return r_word(TIMING, self._register(), self.chance.randrange(2))


def listed(names: Sequence[str]) -> str:
    return f"[{', '.join(f'{name!r}' for name in names)}]".replace("'", '"')


def bytes_of(words: Sequence[int]) -> bytes:
    return b"".join(word(value).to_bytes(4, "little") for value in words)
