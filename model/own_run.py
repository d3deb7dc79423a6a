"""The machine's own run: eight programs drawn from a number, and the tally of each thread's trace."""

from collections.abc import Iterator
from functools import cache

from model.images import Image
from model.instructions import Ins, encode
from model.bits import nibbles_word, word
from model.setups import HARD, READ_ONLY, SHARED, SOFT, SOFT_SLOT, THREADS, Setup, ThreadSetup
from model.world import RETIRES, World

CYCLES = 100_000
PROGRAM_WORDS = 128
FIRST_DRAWN, BEHIND_DRAWN = 2, 126
REGION = 2048
HARD_THREADS = 4


def draws(number: int) -> Iterator[int]:
    while True:
        number = word(number * 1664525 + 1013904223)
        yield number


def drawn(x: int) -> Ins:
    """The instruction of a draw."""
    a, b, d = 1 + (x >> 8) % 7, 1 + (x >> 12) % 7, 1 + (x >> 16) % 7
    e = 4 * ((x >> 20) % 64)
    return (
        Ins("Op", "Add", rd=d, rs1=a, rs2=b),
        Ins("Op", "Sub", rd=d, rs1=a, rs2=b),
        Ins("Op", "Xor", rd=d, rs1=a, rs2=b),
        Ins("OpImm", "Addi", rd=d, rs1=a, imm=e),
        Ins("Op", "Sltu", rd=d, rs1=a, rs2=b),
        Ins("Load", "Lw", rd=d, rs1=8, imm=e),
        Ins("Store", "Sw", rs1=8, rs2=b, imm=e),
        Ins("Branch", "Bne", rs1=a, rs2=b, imm=8),
    )[(x >> 28) % 8]


def program(thread: int, numbers: Iterator[int]) -> list[Ins]:
    """The program of a thread, which takes as many draws as it has drawn words."""
    body = [drawn(next(numbers)) for _ in range(FIRST_DRAWN, BEHIND_DRAWN)]
    return [
        Ins("Lui", rd=8, imm=0x20000 + (thread + 1) // 2),
        Ins("OpImm", "Addi", rd=8, rs1=8, imm=-REGION * (thread % 2)),
        *body,
        Ins("OpImm", "Addi", rd=1, rs1=1, imm=1),
        Ins("Jal", imm=4 * (FIRST_DRAWN - PROGRAM_WORDS + 1)),
    ]


def setup() -> Setup:
    threads = [
        ThreadSetup(HARD if k < HARD_THREADS else SOFT, REGION * k, confined=k < HARD_THREADS)
        for k in range(THREADS)
    ]
    hard = list(range(HARD_THREADS))
    return Setup(
        version=1, period=10, image="-", slots=nibbles_word(hard + [SOFT_SLOT] * 4),
        iregions=nibbles_word(range(THREADS)),
        dregions=nibbles_word(hard + [SHARED] * 3 + [READ_ONLY]), threads=threads,
    )  # fmt: skip


def image(number: int) -> Image:
    numbers = draws(number)
    programs = [program(thread, numbers) for thread in range(THREADS)]
    code = [b"".join(encode(x).to_bytes(4, "little") for x in each) for each in programs]
    return Image([(REGION * k, data) for k, data in enumerate(code)])


@cache
def lines(number: int) -> tuple[bytes, ...]:
    """A line for each thread: its number of events, and a hash of the bytes of its trace."""
    world = World(setup(), image(number), [None] * THREADS)
    counts, folds = [0] * THREADS, [0] * THREADS
    for _ in range(CYCLES - RETIRES):
        if event := world.step().event:
            counts[event.thread] += 1
            for byte in event.line():
                folds[event.thread] = word(folds[event.thread] * 31 + byte)
    return tuple(f"T{k} events {counts[k]} fold {folds[k]:08x}\n".encode() for k in range(THREADS))
