"""programs.txt, solo.txt and bounds.txt: runs of the machine and of one thread, and bounds of sections."""

from collections.abc import Iterator

from model.alone import View, solo
from model.bounds import Bounds
from model.commands import MOST_BOUND
from model.effects import trace
from model.graphs import Graph, Part
from model.images import Image, image_of_words, read_image
from model.bits import bits
from model.ports import HeldPort, Ports
from model.registers import own_positions
from model.setups import LARGE, READ_ONLY, THREADS, Loop, Setup, ThreadSetup, read_setup
from model.tables.forms import Row, number, numbers, rows, table
from model.walks import TooManyWalks, Walks
from model.world import RETIRES, World

MOST_WALKED, MOST_STATES = 1_000, 5_000
"""The largest bound for which all paths are tried, and the most states of them."""

ALL_READ_ONLY = READ_ONLY * 0x11111111


def shown(setup: Setup, image: Image, ports: Ports, cycles: int) -> str:
    """The events that have retired after a number of cycles, each after its thread."""
    events = World(setup, image, ports).run_to(cycles).retired(cycles)
    return "".join(f"{event.thread} {event.line().decode().strip()};" for event in events)


def program_setup(slots: int, modes: int, second: int) -> Setup:
    """Thread 0 has a permit, thread 1 an entry of its own, and the data regions are thread 0's."""
    threads = [
        ThreadSetup(bits(modes, 2 * k + 1, 2 * k), second if k == 1 else 0, permit=k == 0)
        for k in range(THREADS)
    ]
    return Setup(1, 10, "-", slots, ALL_READ_ONLY, 0, threads)


def machine_answer() -> str:
    """The trace of the machine that `test_units` makes field by field."""
    code = {
        0: 0x00100293,
        4: 0x00002303,
        8: 0x00000463,
        12: 0x00000013,
        16: 0x00200393,
        20: 0x0000006F,
    }
    threads = [ThreadSetup(0, confined=True)] + [ThreadSetup()] * 7
    setup = Setup(1, 10, "-", 0xFFFFFFF0, ALL_READ_ONLY, 0xCCCCC810, threads)
    return f"{shown(setup, image_of_words(code), [None] * THREADS, 11)}Ok(()) 11"


def pairs(text: str) -> list[tuple[int, int]]:
    return [
        (number(first), number(second))
        for first, _, second in (pair.partition(":") for pair in text.split())
    ]


def program_answer(call: str) -> str:
    """The events of a program, and the latch of thread 0's device, which is the only one."""
    if call == "state_of_fields":
        return machine_answer()
    head, code, fed = (call.split(", ") + [""])[:3]
    slots, modes, second, cycles = numbers(head)
    port = HeldPort()
    for at, value in pairs(fed):
        port.feed(at, value)
    setup, image = program_setup(slots, modes, second), image_of_words(
        {4 * k: word for k, word in pairs(code)}
    )
    ports: Ports = [port] + [None] * 7
    latch = World(setup, image, ports).run_to(cycles - RETIRES + 1).latches[0]
    return f"{shown(setup, image, ports, cycles)}latch {latch:x}"


def solo_answer(call: str) -> str:
    """The number of bytes of a thread's trace, without a device at its port."""
    setup_name, image_name, thread, cycles = call.split()
    setup = read_setup(table(setup_name).read_bytes())
    image = read_image(table(image_name).read_bytes(), setup.size)
    return (
        f"{len(trace(solo(View(setup, image, [None] * THREADS, int(thread)), int(cycles))))} bytes"
    )


# ---------------------------------------------------------------- bounds


def loops_of(text: str) -> list[Loop]:
    """Loops of hexadecimal ends and decimal bounds, three numbers each."""
    words = text.split()
    return [
        Loop(int(h, 16), int(l, 16), int(b))
        for h, l, b in zip(words[::3], words[1::3], words[2::3])
    ]


class Question:
    """A call of bounds.txt."""

    def __init__(self, call: str) -> None:
        head, loops, words = call.split("\t")
        self.slots, self.thread, start, end = (int(word, 16) for word in head.split())
        self.section, self.loops = Part(start, end), loops_of(loops)
        data = b"".join(int(word, 16).to_bytes(4, "little") for word in words.split())
        self.image = read_image(data, LARGE)

    def may_be_asked(self) -> bool:
        start, end = self.section.first, self.section.end
        is_section = start < end <= LARGE and start % 4 == end % 4 == 0
        return is_section and self.thread < THREADS and bool(own_positions(self.slots, self.thread))

    def graph(self) -> Graph:
        return Graph(self.image.word, self.section, [], self.loops)


def bound_answer(call: str) -> str:
    question = Question(call)
    if not question.may_be_asked():
        return "-"
    graph = question.graph()
    if refusal := graph.refusal():
        return f"refused {refusal[0]} {refusal[0].name} {refusal[1]:08x}"
    cost = Bounds(graph, question.slots, question.thread).largest_cost()
    return f"bound {cost}" if cost <= MOST_BOUND else f"refused 6 Overflow {cost}"


def walked(graph: Graph, slots: int, thread: int, wanted: str, name: str) -> Row:
    """A bound in the form of the table, with the largest cost of all paths, one by one, unless there are too many."""
    if int(wanted.removeprefix("bound ")) > MOST_WALKED:
        return name, None
    try:
        found = f"bound {Walks(graph, slots, thread).largest_cost(MOST_STATES)}"
    except TooManyWalks:
        return name, None
    return name, "" if found == wanted else f"the walks have {found} for {wanted}"


def walked_rows() -> Iterator[Row]:
    """The bounds of bounds.txt, by all paths."""
    for wanted, call in rows("bounds.txt"):
        if wanted.startswith("bound"):
            question = Question(call)
            yield walked(question.graph(), question.slots, question.thread, wanted, call)
