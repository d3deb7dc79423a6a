"""images.txt, elf.txt, routines.txt and setups.txt: the values of files, or their first faults."""

from collections.abc import Iterator

from model.executables import ElfFault, read_elf
from model.graphs import RoutinesFault, read_routines
from model.images import Image, ImageFault, read_image
from model.bits import nibbles_word
from model.setups import (
    HARD,
    LARGE,
    SMALL,
    SOFT,
    THREADS,
    Setup,
    SetupFault,
    ThreadSetup,
    read_setup,
)
from model.tables.forms import number, repeated, table, unescaped, words_in_runs
from model.tables.text_rows import segments

SIZES = {"small": SMALL, "large": LARGE}


def read_answer(data: bytes, size: int) -> str:
    """The segments of an image, or its fault."""
    try:
        image = read_image(data, size)
    except ImageFault as fault:
        return f"{fault.code.name} {fault.offset}"
    return segments(image) + ("" if image.written() == data else "written otherwise")


def image_answer(call: str) -> str:
    name, _, rest = call.partition(" ")
    if name in SIZES:
        return read_answer(unescaped(rest), SIZES[name])
    if name == "zeros":
        size, count = rest.split(" ")
        return read_answer(bytes(int(count)), SIZES[size])
    if name == "word":
        address, _, data = rest.partition(" ")
        value = read_image(unescaped(data), LARGE).word(number(address))
        return f"{value:x} {value:x}"
    made = Image([(0x100, bytes([1, 2, 3, 4]))])
    return f"{len(Image([]).segments)} {made.word(0x100):x} {made.word(0xFC):x} {segments(made)}"


def elf_answer(call: str) -> str:
    """The image of an executable, or its fault."""
    try:
        image = read_elf(repeated(call))
    except ElfFault as fault:
        return f"{fault.code} {fault.code.name} {fault.offset}"
    return "image" + "".join(
        f" {address:08x}:{words_in_runs(data)}" for address, data in image.segments
    )


def routines_answer(call: str) -> str:
    size, _, data = call.partition(" ")
    try:
        routines = read_routines(unescaped(data), SIZES[size])
    except RoutinesFault as fault:
        return f"{fault.code.name} {fault.line}"
    return "".join(f"{routine.first:x}:{routine.end - 4:x};" for routine in routines)


# ---------------------------------------------------------------- setups


def setup_rows() -> Iterator[tuple[str, str]]:
    """The answers of setups.txt, each with its call."""
    for row in table("setups.txt").read_text().split("=== ")[1:]:
        call, _, wanted = row.partition("--- ")
        yield wanted, call


def said(setup: Setup) -> Iterator[str]:
    """All values of a setup, line by line."""
    yield f"version {setup.version} period {setup.period}"
    yield f"slots {setup.slots:08x} modes {setup.modes:08x}"
    yield f"regions {setup.iregions:08x} {setup.dregions:08x} image {setup.image}"
    for number_of, thread in enumerate(setup.threads):
        flags = " confined" * thread.confined + " permit" * thread.permit
        unplug = "" if thread.unplug is None else f" unplug {thread.unplug}"
        inputs = "".join(f" {at}:{value}" for at, value in thread.inputs)
        yield f"T{number_of} entry {thread.entry}{flags}{unplug}{inputs}"
    for loop in setup.loops:
        yield f"loop {loop.head} {loop.last} {loop.bound}"


def setup_said(setup: Setup) -> str:
    return "--- ".join(f"{line}\n" for line in said(setup))


def read_setup_answer(data: bytes) -> str:
    try:
        return setup_said(read_setup(data))
    except SetupFault as fault:
        return f"refused {fault.code} {fault.code.name} {fault.path}\n"


def setup_of_words() -> Setup:
    """The setup that `test_units` makes of its registers' words."""
    threads = [
        ThreadSetup(HARD if k < 4 else SOFT, 2048 * k, confined=k < 4) for k in range(THREADS)
    ]
    return Setup(1, 10, "-", 0xEEEE3210, nibbles_word(range(8)), 0xC8883210, threads)


def setup_answer(call: str) -> str | None:
    """The answer to a call; None for one that requires the parts of a setup, which the model doesn't have."""
    name, _, text = call.partition("\n")
    kind, sign, given = name.partition(": ")
    if not sign:
        return read_setup_answer(text.encode())
    match kind:
        case "bytes":
            return read_setup_answer(unescaped(given))
        case "signs":
            return read_setup_answer(b"#" * int(given))
        case "file":
            return read_setup_answer(table(given).read_bytes())
        case "words":
            return setup_said(setup_of_words())
    return None
