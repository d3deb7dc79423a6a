"""Setups with images and ports: hard, soft and sleeping threads, permits and writes of configuration registers, expiry,
waits, inputs and unplugging, both sizes. A seed always gives the same; worlds.txt and settings.txt name their cases by
it."""

import random
from collections.abc import Callable, Sequence
from dataclasses import dataclass

from model.drawn.code import (
    addi, arithmetic, branch, bytes_of, csr, immediate, jal, jalr, li, load, muldiv, shift, store, timed,
)  # fmt: skip
from model.images import DATA, Image, Segments
from model.instructions import BRANCHES, CSR_OPS, IMMEDIATES, PRODUCTS, SHIFTS, Ins
from model.ports import Counter, HeldPort, Ports, Wave

from model.registers import (
    DREGIONS, IREGIONS, MCAUSE, MEPC, MHARTID, MODES, MSCRATCH, MTVEC, PORT, SLOTS,
)  # fmt: skip
from model.setups import LARGE, NO_SLOT, READ_ONLY, REGIONS, SHARED, SMALL, SOFT_SLOT, THREADS
from model.setups import MODES as MODE_NAMES
from model.setups import SLOTS as SLOT_NAMES

OWN, OWN_FAR, PORT_BASE, TARGET, MOMENT, WRITTEN = 10, 11, 12, 13, 14, 15
"""The registers that code keeps for addresses of data, of the port and of code, for a moment, and for the words that it
writes to configuration registers."""

CALCULATED = range(8)
"""The registers that it computes with."""

CYCLES = [0, 3, 4, 5, 9, 30, 100, 200, 300, 400, 600]
PIECES: dict[str, float] = {
    "op": 30, "load": 14, "store": 12, "branch": 8, "jal": 3, "jalr": 2, "csr": 6, "time": 4, "wait": 10, "sys": 0.7,
    "word": 0.3, "mul": 5, "pointer": 3, "sched": 0, "port": 6, "near": 5, "fence": 1,
}  # fmt: skip
"""The kinds of pieces of code, with their frequencies."""

WEIGHT_OF_WRITES = 18
"""How often a piece writes configuration registers, if code does so at all."""


@dataclass
class DrawnThread:
    """The settings of a thread except its mode."""

    entry: int
    confined: bool
    permit: bool
    unplug: int | None
    inputs: list[tuple[int, int]]


class World:
    """A setup, an image and devices of a seed, with the number of cycles that they are run for."""

    def __init__(self, seed: int) -> None:
        self.seed, self.chance = seed, random.Random(seed)
        chance = self.chance
        self.cycles = chance.choice(CYCLES)
        self.version = 2 if chance.random() < 0.2 else 1
        self.size = SMALL if self.version == 1 else LARGE
        self.region = self.size // 8
        self.period = chance.choice([1, 3, 10, 10, 10, 1000])
        self.permits = chance.random() < 0.5
        self.writes = self.permits and chance.random() < 0.7
        self.guards = chance.random() < 0.5
        self.slots = self._slots()
        self.modes = [chance.choice([0, 0, 0, 0, 2, 2, 1, 3]) for _ in range(THREADS)]
        self.iregions, self.dregions = self._regions()
        self.home: dict[int, int] = {}
        self.threads = [self._thread(k) for k in range(THREADS)]
        self.hammers = chance.random() < 0.15
        if self.hammers:
            self._prepare_hammer()
        self.image = self._image().written()
        self.setup = self._setup()

    # ------------------------------------------------------------ the setup

    def _slots(self) -> list[int]:
        chance = self.chance
        slots = [chance.choice([0, 1, 2, 3, 0, 1, 2, 4, 5, 6, 7, 14, 14, 15, 15]) for _ in range(8)]
        if chance.random() < 0.25:
            slots = [chance.choice([0, 0, 0, 1, 14, 15]) for _ in range(8)]
        if chance.random() < 0.2:
            slots = [0] + [NO_SLOT] * 7
        if chance.random() < 0.1:
            slots = [0, 1] + [NO_SLOT] * 6
        if chance.random() < 0.02:
            slots = [NO_SLOT] * 8
        return slots

    def _regions(self) -> tuple[list[int], list[int]]:
        chance, style = self.chance, self.chance.random()
        kinds: list[int] = []
        if style < 0.2:
            kinds = [*range(8), SHARED, READ_ONLY]
        elif style < 0.4:
            kinds = [READ_ONLY, READ_ONLY, SHARED, 0, 1]
        elif style < 0.5:
            kinds = [0, 1, 2, 3]
        code = (kinds or [READ_ONLY] * 3 + [0, 1]) + [READ_ONLY] * 2
        iregions = [chance.choice(code) for _ in range(8)]
        dregions = [chance.choice(kinds or [k, k, k, k, SHARED, READ_ONLY, 0]) for k in range(8)]
        return iregions, dregions

    def _thread(self, k: int) -> DrawnThread:
        chance = self.chance
        mine = [j for j in range(8) if self.iregions[j] in (k, READ_ONLY)] or list(range(8))
        if k in mine and chance.random() < 0.75:
            region = k
        else:
            region = chance.choice(mine) if chance.random() < 0.85 else chance.randrange(8)
        entry = region * self.region
        self.home.setdefault(region, k)
        if chance.random() < 0.05:
            entry += 4 * chance.randrange(64)
        confined = chance.random() < 0.6 and not (self.writes and k == 0)
        permit = self.permits and not confined and chance.random() < (0.95 if k == 0 else 0.6)
        unplug = chance.choice([None, None, chance.randrange(0, self.cycles + 6)])
        return DrawnThread(entry, confined, permit, unplug, self._inputs())

    def _inputs(self) -> list[tuple[int, int]]:
        chance, at = self.chance, 0
        inputs: list[tuple[int, int]] = []
        for _ in range(chance.choice([0, 0, 1, 3, 8])):
            inputs.append((at + chance.randrange(0, 40), chance.getrandbits(32)))
            at = inputs[-1][0] + 1
        return inputs

    def _prepare_hammer(self) -> None:
        """Gives thread 0 code that only writes configuration registers."""
        chance = self.chance
        self.modes[0] = chance.choice([0, 0, 2])
        self.iregions[0] = chance.choice([0, READ_ONLY])
        self.slots[0] = 0
        if chance.random() < 0.5:
            self.slots = [0, 1, 1, 2] + [NO_SLOT] * 4
            chance.shuffle(self.slots)
        first = self.threads[0]
        first.entry, first.confined, first.permit = 0, False, True

    def _setup(self) -> bytes:
        lines = [
            f"version = {self.version}", f"period = {self.period}", 'image = "a.fpx"',
            f"slots = {quoted(self.slots, SLOT_NAMES)}", f"i_regions = {quoted(self.iregions, REGIONS)}",
            f"d_regions = {quoted(self.dregions, REGIONS)}",
        ]  # fmt: skip
        for k, thread in enumerate(self.threads):
            lines += [
                "[[thread]]",
                f"id = {k}",
                f'mode = "{list(MODE_NAMES)[self.modes[k]]}"',
                f"entry = {thread.entry}",
            ]
            lines += ["confined = true"] * thread.confined + ["permit = true"] * thread.permit
            if thread.unplug is not None:
                lines.append(f"unplug = {thread.unplug}")
            if thread.inputs:
                lines.append(
                    f"inputs = [{', '.join(f'[{at}, {value}]' for at, value in thread.inputs)}]"
                )
        return "".join(f"{line}\n" for line in lines).encode()

    def ports(self) -> Ports:
        """Devices of all kinds, or none, some with a word in the latch."""
        chance = random.Random(self.seed + 1)
        ports: Ports = []
        for _ in range(THREADS):
            port = chance.choice(
                [None, HeldPort(), HeldPort(), Wave(chance.randrange(1, 9)), Counter()]
            )
            if port is not None and chance.random() < 0.3:
                port.kept = chance.getrandbits(32)
            ports.append(port)
        return ports

    # ------------------------------------------------------------ the image

    def _image(self) -> Image:
        chance = self.chance
        segments: Segments = [(0, bytes_of(self._hammer()))] if self.hammers else []
        for k in range(len(segments), 8):
            if chance.random() >= 0.07:
                segments.append((k * self.region, bytes_of(self._code(k * self.region))))
        for k in range(8):
            if chance.random() < 0.6:
                words = [
                    chance.getrandbits(32).to_bytes(4, "little")
                    for _ in range(chance.choice([4, 16, 64]))
                ]
                segments.append((DATA + k * self.region, b"".join(words)))
        return Image(segments)

    def _code(self, base: int) -> list[Ins]:
        """Pieces from an address on, with a jump back after them."""
        code = self._pointers(base) if self.chance.random() < 0.9 else []
        length = self.chance.choice([20, 40, 80, 160])
        while len(code) < length:
            code += self._piece(base + 4 * len(code))
        return code + [jal(0, -4 * self.chance.randrange(1, len(code)))]

    def _hammer(self) -> list[Ins]:
        """Writes of configuration registers, back and forth, a few cycles apart."""
        chance = self.chance
        settings = (SLOTS, MODES)
        written = chance.choice(
            [settings, settings, (DREGIONS, IREGIONS), (*settings, DREGIONS, IREGIONS)]
        )
        values: list[tuple[int, int]] = []
        code: list[Ins] = []
        for register in range(16, 22):
            number = chance.choice(written)
            values.append((number, register))
            code += li(register, self._hammered(number))
        start = len(code)
        for _ in range(8):
            number, register = chance.choice(values)
            code.append(csr("Rw", chance.choice([0, 5]), number, register))
            code += [addi(1, 1, 1)] * chance.choice([0, 0, 0, 1, 2])
        return code + [jal(0, 4 * (start - len(code)))]

    def _hammered(self, number: int) -> int:
        """A word for a configuration register that doesn't affect thread 0."""
        chance = self.chance
        if number == MODES:
            return sum(
                (
                    m
                    if k == 0 or chance.random() < 0.4
                    else chance.choice([0, 1, 0, 1, 2, 3] if m > 1 else [0, 1])
                )
                << 2 * k
                for k, m in enumerate(self.modes)
            )
        held = {SLOTS: self.slots, DREGIONS: self.dregions, IREGIONS: self.iregions}[number]
        pool = [0, 1, 2, 3, SOFT_SLOT, NO_SLOT] if number == SLOTS else [0, 1, 2, SHARED, READ_ONLY]
        return sum(
            (v if k == 0 or chance.random() < 0.5 else chance.choice(pool)) << 4 * k
            for k, v in enumerate(held)
        )

    def _pointers(self, at: int) -> list[Ins]:
        """Gives the registers for addresses new ones, and at a region's start often a handler."""
        chance, start = self.chance, at % self.region == 0
        who = self.home.get(at // self.region, chance.randrange(8))
        good = [j for j in range(8) if self.dregions[j] == who]
        good = good or [j for j in range(8) if self.dregions[j] in (SHARED, READ_ONLY)]
        others = [j for j in range(8) if self.dregions[j] in (who, SHARED, READ_ONLY)]
        code = (
            li(OWN, self._data_address(good))
            + li(OWN_FAR, self._data_address(others))
            + li(PORT_BASE, PORT)
        )
        target = chance.randrange(8) * self.region + 4 * chance.randrange(40)
        if chance.random() < 0.6:
            target = at - at % self.region + 4 * chance.randrange(40)
        code += li(TARGET, target)
        if start and chance.random() < 0.9:
            handler = li(WRITTEN, at + 4 * chance.choice([11, 12, 14, 16, 20]))
            code = handler + [csr("Rw", 0, MTVEC, WRITTEN)] + code
        return code

    def _data_address(self, regions: Sequence[int]) -> int:
        """An address, mostly in one of some regions."""
        chance = self.chance
        region = (
            chance.choice(regions) if regions and chance.random() < 0.85 else chance.randrange(8)
        )
        address = DATA + region * self.region + chance.choice([0, 0, self.region - 16])
        if chance.random() < 0.1:
            address = chance.randrange(8) * self.region
        if chance.random() < 0.05:
            address = chance.choice([DATA + self.size - 8, self.size - 8, PORT - 4, PORT + 4])
        return address

    # ------------------------------------------------------------ pieces of code

    def _register(self) -> int:
        return self.chance.choice(CALCULATED)

    def _base(self) -> int:
        return self.chance.choice(
            [OWN] * 16 + [OWN_FAR] * 8 + [PORT_BASE, TARGET, TARGET, self._register()]
        )

    def _offset(self, size: int) -> int:
        chance = self.chance
        if chance.random() < 0.06:
            return chance.randrange(-2048, 2048)
        return (
            size * chance.randrange(0, 8)
            if chance.random() < 0.9
            else 4 * chance.randrange(-512, 512)
        )

    def _weights(self) -> dict[str, float]:
        """How often each kind of piece is drawn."""
        return PIECES | {"sched": WEIGHT_OF_WRITES if self.writes else 0}

    def _piece(self, at: int) -> list[Ins]:
        """Instructions to place at an address."""
        weights = self._weights()
        kind = self.chance.choices(list(weights), list(weights.values()))[0]
        if kind == "pointer":
            return self._pointers(at)
        pieces: dict[str, Callable[[], list[Ins]]] = {
            "op": self._op, "mul": self._mul, "load": self._load, "store": self._store, "port": self._port,
            "branch": self._branch, "jal": self._jal, "jalr": self._jalr, "near": self._near, "csr": self._csr,
            "time": self._time, "wait": self._wait, "sys": self._sys, "fence": self._fence, "word": self._word,
            "sched": self._sched,
        }  # fmt: skip
        return pieces[kind]()

    def _op(self) -> list[Ins]:
        chance, reg = self.chance, self._register
        if chance.random() < 0.5:
            op = chance.choice(["Addi", *IMMEDIATES.values()])
            return [immediate(op, reg(), reg(), chance.randrange(-2048, 2048))]
        if chance.random() < 0.3:
            return [shift(chance.choice(list(SHIFTS.values())), reg(), reg(), chance.randrange(32))]
        if chance.random() < 0.2:
            return [Ins(chance.choice(["Lui", "Auipc"]), rd=reg(), imm=chance.getrandbits(20))]
        op = chance.choice(["Add", "Sub", "Sll", "Slt", "Sltu", "Xor", "Srl", "Sra", "Or", "And"])
        return [arithmetic(op, reg(), reg(), reg())]

    def _mul(self) -> list[Ins]:
        op = self.chance.choice(list(PRODUCTS.values()))
        return [muldiv(op, self._register(), self._register(), self._register())]

    def _load(self) -> list[Ins]:
        op, size = self.chance.choice(
            [("Lb", 1), ("Lh", 2), ("Lw", 4), ("Lw", 4), ("Lbu", 1), ("Lhu", 2)]
        )
        return [load(op, self._register(), self._base(), self._offset(size))]

    def _store(self) -> list[Ins]:
        op, size = self.chance.choice([("Sb", 1), ("Sh", 2), ("Sw", 4), ("Sw", 4)])
        return [store(op, self._base(), self._register(), self._offset(size))]

    def _port(self) -> list[Ins]:
        reg = self._register
        pool = [
            load("Lw", reg(), PORT_BASE, 0), load("Lw", reg(), PORT_BASE, 0), store("Sw", PORT_BASE, reg(), 0),
            load("Lbu", reg(), PORT_BASE, 0), store("Sh", PORT_BASE, reg(), 0),
        ]  # fmt: skip
        return [self.chance.choice(pool)]

    def _branch(self) -> list[Ins]:
        offset = 4 * self.chance.randrange(-6, 8) + (2 if self.chance.random() < 0.04 else 0)
        return [
            branch(
                self.chance.choice(list(BRANCHES.values())),
                self._register(),
                self._register(),
                offset,
            )
        ]

    def _jal(self) -> list[Ins]:
        chance = self.chance
        offset = 4 * chance.randrange(-8, 10) + (2 if chance.random() < 0.05 else 0)
        if chance.random() < 0.1:
            offset = chance.choice([-1, 1]) * self.region
        return [jal(chance.choice([0, 1, self._register()]), offset)]

    def _jalr(self) -> list[Ins]:
        chance = self.chance
        rd, rs1 = self._register(), chance.choice([TARGET, TARGET, TARGET, 1, self._register()])
        return [jalr(rd, rs1, chance.choice([0, 4, 8, 16, 1, 2, 3]))]

    def _near(self) -> list[Ins]:
        """A load, and uses of its value."""
        chance, reg = self.chance, self._register
        a = reg()
        return [
            load("Lw", a, OWN, 4 * chance.randrange(8)), arithmetic("Add", reg(), a, reg()),
            store("Sw", OWN, a, 4 * chance.randrange(8)), branch("Bne", a, reg(), 8),
        ]  # fmt: skip

    def _csr(self) -> list[Ins]:
        chance = self.chance
        own = (SLOTS, MODES, DREGIONS, IREGIONS)
        number = chance.choice(
            [MTVEC, MSCRATCH, MEPC, MCAUSE, MHARTID] * 4 + [*own, 0xC00, chance.randrange(4096)]
        )
        op = chance.choice(list(CSR_OPS.values()))
        source = chance.choice([0, 0, TARGET, self._register(), chance.randrange(32)])
        if number in own and not self.writes:
            op = "Rs" if op in ("Rw", "Rwi") else op
            source = 0 if chance.random() < 0.8 else source
        if number == MTVEC and chance.random() < 0.7:
            op, source = "Rw", TARGET
        return [csr(op, self._register(), number, source)]

    def _time(self) -> list[Ins]:
        reg = self._register
        pool = [
            Ins("Gt", rd=reg()), Ins("Gth", rd=reg()), Ins("De"), Ins("Mret"), timed("Ee", 0, reg()), timed("Wu", 0,
            reg()),
            timed("Du", 0, reg()), timed("Ee", reg(), reg()),
        ]  # fmt: skip
        return [self.chance.choice(pool)]

    def _wait(self) -> list[Ins]:
        """A wait until a moment that is some cycles away, or its expiry."""
        chance = self.chance
        length = max(1, sum(v != NO_SLOT for v in self.slots))
        cycles = chance.choice([-3, 0, 1, 2, 3, 4, 5, 6, 7, 8, 9, 12, 20]) * chance.choice(
            [1, length, length]
        )
        away = (cycles + chance.choice([0, 0, 1, 2, -1])) * self.period + chance.choice(
            [0, 0, -1, 1]
        )
        away = max(-2048, min(2047, away))
        if self.period == 1000:
            away = chance.choice([-5, 0, 999, 1000, 1001, 2000, 2047])
        last = timed(chance.choice(["Wu", "Du", "Ee"]), 0, MOMENT)
        code = [Ins("Gt", rd=MOMENT), addi(MOMENT, MOMENT, away), last]
        if last.kind == "Ee" and chance.random() < 0.6:
            more = min(2047, chance.choice([0, 3, 5, 9, 2 * length]) * self.period)
            code += [
                addi(MOMENT, MOMENT, more),
                timed(chance.choice(["Wu", "Du", "Wu"]), 0, MOMENT),
            ]
        return code

    def _sys(self) -> list[Ins]:
        return [Ins(self.chance.choice(["Ecall", "Ebreak", "Mret", "Mret"]))]

    def _fence(self) -> list[Ins]:
        return [
            Ins(
                "Fence",
                imm=self.chance.choice(
                    [0x0FF0000F, 0x0000100F, 0x0000000F | self.chance.getrandbits(17) << 15]
                ),
            )
        ]

    def _word(self) -> list[Ins]:
        return [Ins("Illegal", imm=self.chance.getrandbits(32))]

    def _sched(self) -> list[Ins]:
        """A write of a configuration register."""
        chance = self.chance
        number = chance.choice([SLOTS, MODES] + ([DREGIONS, IREGIONS] if self.guards else []))
        value = self._written(number)
        if chance.random() < 0.15:
            code = li(WRITTEN, 1 << chance.randrange(32))
            return code + [csr(chance.choice(["Rs", "Rc"]), self._register(), number, WRITTEN)]
        return li(WRITTEN, value) + [
            csr("Rw", chance.choice([0, self._register()]), number, WRITTEN)
        ]

    def _written(self, number: int) -> int:
        """A word for a configuration register, mostly near to the setup's."""
        chance = self.chance
        if number == SLOTS:
            value = sum(
                chance.choice([0, 1, 2, 3, 4, 14, 15, 0, 1, 2, chance.randrange(16)]) << 4 * k
                for k in range(8)
            )
            if chance.random() < 0.8:
                value = sum(
                    (s if chance.random() < 0.7 else chance.choice([0, 1, 2, 14, 15])) << 4 * k
                    for k, s in enumerate(self.slots)
                )
            return value
        if number == MODES:
            return self._written_modes()
        held = self.dregions if number == DREGIONS else self.iregions
        return sum(
            (v if chance.random() < 0.8 else chance.choice([0, 1, 2, 8, 12])) << 4 * k
            for k, v in enumerate(held)
        )

    def _written_modes(self) -> int:
        chance = self.chance
        if chance.random() < 0.4:
            value = chance.getrandbits(16)
        else:
            value = sum(
                (m if chance.random() < 0.7 else chance.choice([0, 1, 2])) << 2 * k
                for k, m in enumerate(self.modes)
            )
        return value + (1 << 16) if chance.random() < 0.05 else value


def quoted(values: Sequence[int], names: dict[str, int]) -> str:
    """The list of the names of numbers, as setups write it."""
    name_of = {value: name for name, value in names.items()}
    return "[" + ", ".join(f'"{name_of[it]}"' for it in values) + "]"
