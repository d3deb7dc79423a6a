"""bounds.txt and calls.txt: sections that are drawn, with their bounds or refusals."""

import random
from collections.abc import Iterator

from model.drawn.code import bytes_of
from model.drawn.sections import FRAMES, Calling, Section
from model.drawn.worlds import quoted
from model.images import Image
from model.bits import nibble
from model.setups import REGIONS, SHARED, SLOTS, READ_ONLY, Loop
from model.tables.run_rows import bound_answer
from model.tables.world_cases import HELD, command_lines, file_lines

SECTIONS, CALLING = 200, 300
ROUNDS = (3, 3, 3, 1000, 1_048_576)
"""The largest bounds of loops; mostly small ones, so that all paths can be tried."""

FPX1 = 0x31585046


def bound_call(section: Section) -> str:
    """The call of a section: the slots, the thread and the ends; the loops; an image of only the section."""
    first, end = section.part.first, section.part.end
    loops = " ".join(f"{loop.head:x} {loop.last:x} {loop.bound}" for loop in section.loops)
    words = " ".join(f"{word:08x}" for word in section.words())
    return f"{section.slots:x} {section.thread} {first:x} {end:x}\t{loops}\t{FPX1:x} 1 {first:x} {end - first:x} {words}"


def bounds(seed: int) -> Iterator[str]:
    """Sections with loops of any shape; the worked ones of the stored table aren't among them."""
    chance = random.Random(seed)
    for _ in range(SECTIONS):
        call = bound_call(Section(chance, chance.choice(ROUNDS)))
        yield f"{bound_answer(call)}\t{call}"


def setup(slots: int, loops: list[Loop]) -> bytes:
    """A setup of one hard thread."""
    lines = [
        "period = 10", 'image = "a.fpx"', f"slots = {quoted([nibble(slots, k) for k in range(8)], SLOTS)}",
        f"i_regions = {quoted([READ_ONLY] * 8, REGIONS)}",
        f"d_regions = {quoted([0, 1, SHARED] + [READ_ONLY] * 5, REGIONS)}",
        "[[thread]]", "id = 0", 'mode = "hard"', "entry = 0", "confined = true",
    ]  # fmt: skip
    for loop in loops:
        lines += ["[[loop]]", f"head = {loop.head}", f"last = {loop.last}", f"bound = {loop.bound}"]
    return "".join(f"{line}\n" for line in lines).encode()


def calls(seed: int) -> Iterator[str]:
    """Sections that call routines."""
    chance = random.Random(seed)
    for number in range(CALLING):
        drawn = Calling(chance, chance.choice(ROUNDS))
        routines = "".join(
            f"{routine.first:08x} {routine.end - 4:08x}\n" for routine in drawn.routines
        )
        image = Image([(0, bytes_of(drawn.code))]).written()
        files = {
            "a.toml": setup(chance.choice(FRAMES), drawn.loops),
            "a.fpx": image,
            "r.txt": routines.encode(),
        }
        yield f"=== {number}"
        yield " ".join(HELD)
        yield from file_lines(files)
        ends = f"--from {drawn.section.first:#x} --to {drawn.section.end:#x}"
        yield from command_lines(f"calls a.toml --thread 0 {ends} --routines r.txt", files, HELD)
