"""Compares `loop_cli` with the executable model over drawn setups and plants by tables."""
from __future__ import annotations

import os
import random
import resource
import subprocess
from pathlib import Path

import pytest

from fptools.checkout import TOP
from model.drawn.worlds import World as Drawn
from model.images import read_image
from model.loops import Plant, RecordedPlant, TablePlant, loop_world, sampled
from model.ports import HeldPort
from model.setups import THREADS, read_setup

PROGRAM = Path(os.environ.get("LOOP_CLI", TOP / "crates/loop_cli/out/loop_cli"))
"""The built program."""

pytestmark = pytest.mark.skipif(
    not PROGRAM.is_file(), reason="no loop_cli: build it by rt ci, or name it by LOOP_CLI"
)

SEEDS = range(20_000, 20_200)


def call(setup: str, plants: object, thread: int, every: int, cycles: int) -> list[str]:
    """The call of the program."""
    options = {"plants": plants, "thread": thread, "every": every, "cycles": cycles}
    return [
        str(PROGRAM),
        setup,
        *(text for name, value in options.items() for text in (f"--{name}", str(value))),
    ]


def drawn_tables(chance: random.Random) -> dict[int, tuple[int, ...]]:
    """Tables of one to 16 words for some threads."""
    threads = [thread for thread in range(THREADS) if chance.random() < 0.7]
    return {
        thread: tuple(chance.randrange(1 << 32) for _ in range(chance.randint(1, 16)))
        for thread in threads
    }


@pytest.mark.parametrize("seed", SEEDS)
def test_a_trace_in_loops_with_tables(seed: int, tmp_path: Path) -> None:
    drawn, chance = Drawn(seed), random.Random(seed)
    tables, every = drawn_tables(chance), chance.choice([1, 2, 5, 16, 100])
    setup = read_setup(drawn.setup)
    image = read_image(drawn.image, setup.size)
    (tmp_path / "a.toml").write_bytes(drawn.setup)
    (tmp_path / "a.fpx").write_bytes(drawn.image)
    lines = [f"{thread} table {' '.join(map(str, table))}\n" for thread, table in tables.items()]
    (tmp_path / "plants.txt").write_text("".join(lines))
    plants: dict[int, Plant] = {
        thread: sampled(TablePlant(table), every, 0) for thread, table in tables.items()
    }
    world = loop_world(setup, image, [HeldPort() for _ in range(THREADS)], plants).run_to(
        drawn.cycles
    )
    events = list(world.retired(drawn.cycles))
    for thread in range(THREADS):
        wanted = b"".join(event.line() for event in events if event.thread == thread)
        words = call("a.toml", "plants.txt", thread, every, drawn.cycles)
        ran = subprocess.run(words, cwd=tmp_path, capture_output=True)
        assert (ran.returncode, ran.stdout) == (0, wanted)


LITTLE_MEMORY = 20 << 20
"""A limit of the address space, in bytes. Eight ports that keep 16 bytes for each of 200,000 steps have no room in it."""


def little_memory() -> None:
    """Limits this process and what it runs."""
    resource.setrlimit(resource.RLIMIT_AS, (LITTLE_MEMORY, LITTLE_MEMORY))


def test_a_long_run_takes_no_more_memory_than_a_short_one(tmp_path: Path) -> None:
    listed = tmp_path / "plants.txt"
    listed.write_text("".join(f"{thread} table 3 1 4 1 5\n" for thread in range(THREADS)))
    words = call("examples/loop/motor.toml", listed, 0, 1, 200000)
    ran = subprocess.run(
        words, cwd=TOP, stdout=subprocess.DEVNULL, stderr=subprocess.PIPE, preexec_fn=little_memory
    )
    assert (ran.returncode, ran.stderr) == (0, b"")


@pytest.mark.parametrize("seed", SEEDS[:40])
def test_a_trace_with_recorded_words(seed: int, tmp_path: Path) -> None:
    drawn, chance = Drawn(seed), random.Random(seed)
    recorded, every = drawn_tables(chance), chance.choice([1, 2, 5, 16, 100])
    setup = read_setup(drawn.setup)
    image = read_image(drawn.image, setup.size)
    (tmp_path / "a.toml").write_bytes(drawn.setup)
    (tmp_path / "a.fpx").write_bytes(drawn.image)
    lines = [
        f"{thread} recorded {' '.join(map(str, words))}\n" for thread, words in recorded.items()
    ]
    (tmp_path / "plants.txt").write_text("".join(lines))
    plants: dict[int, Plant] = {
        thread: sampled(RecordedPlant(words), every, 0) for thread, words in recorded.items()
    }
    world = loop_world(setup, image, [HeldPort() for _ in range(THREADS)], plants).run_to(
        drawn.cycles
    )
    events = list(world.retired(drawn.cycles))
    for thread in range(THREADS):
        wanted = b"".join(event.line() for event in events if event.thread == thread)
        words = call("a.toml", "plants.txt", thread, every, drawn.cycles)
        ran = subprocess.run(words, cwd=tmp_path, capture_output=True)
        assert (ran.returncode, ran.stdout) == (0, wanted)


def test_a_plant_at_the_pipe(tmp_path: Path) -> None:
    """The trace and the exchanges are on standard error, and the recorded answers give the same trace."""
    piped, recorded = tmp_path / "piped.txt", tmp_path / "recorded.txt"
    piped.write_text("0 pipe\n")
    answers = [at * 4096 for at in range(30)]
    recorded.write_text(f"0 recorded {' '.join(map(str, answers))}\n")

    def ran(plants: Path, given: str) -> subprocess.CompletedProcess[str]:
        words = call("examples/loop/motor.toml", plants, 0, 100, 3000)
        return subprocess.run(words, cwd=TOP, input=given, capture_output=True, text=True)

    live = ran(piped, "".join(f"{answer}\n" for answer in answers))
    lines = live.stderr.splitlines(keepends=True)
    trace = "".join(line for line in lines if not line.startswith("> "))
    exchanges = [line.split()[1:] for line in lines if line.startswith("> ")]
    assert live.returncode == 0
    assert live.stdout == "".join(f"{cycle} {word}\n" for cycle, word, _ in exchanges)
    assert [int(cycle) for cycle, _, _ in exchanges] == list(range(0, 3000, 100))
    assert [int(answer) for _, _, answer in exchanges] == answers
    assert len({word for _, word, _ in exchanges}) > 2
    again = ran(recorded, "")
    assert (again.returncode, again.stdout, again.stderr) == (0, trace, "")


@pytest.mark.parametrize(
    ("given", "said"), [("", "ended before the run"), ("0\n0x5\n", "answered no word of 32 bits")]
)
def test_a_plant_at_the_pipe_that_breaks_off(given: str, said: str, tmp_path: Path) -> None:
    (tmp_path / "piped.txt").write_text("0 pipe\n")
    words = call("examples/loop/motor.toml", tmp_path / "piped.txt", 0, 100, 1000)
    ran = subprocess.run(words, cwd=TOP, input=given, capture_output=True, text=True)
    assert (ran.returncode, ran.stderr.splitlines()[-1]) == (
        10,
        f"loop_cli: the plant at the pipe {said}",
    )


FAULT = (
    "loop_cli: line {line} of the list isn't `THREAD body|motor STEPS`, `THREAD table|recorded WORD ..` or `THREAD pipe`, "
    "or it is a second one of a thread, or a second pipe\n"
)


@pytest.mark.parametrize(
    ("plants", "line"),
    [("0 body 3 4\n", 1), ("0 motor 3\n0 table 1\n", 2), ("\n# a\n8 motor 3\n0 lamp 1\n", 3), ("0 table\n", 1), ("0 motor\n", 1),
     ("0 lamp 1\n", 1), ("0 motor 0x3\n", 1), ("0 recorded\n", 1), ("0 recorded -1\n", 1), ("0 recorded 4294967296\n", 1),
     ("0 pipe 3\n", 1), ("0 pipe\n1 motor 3\n\n2 pipe\n", 4), ("1 motor 3\n#0 motor 3\n", 2), ("0\n", 1)],
)  # fmt: skip
def test_a_list_that_is_refused(plants: str, line: int, tmp_path: Path) -> None:
    listed = tmp_path / "plants.txt"
    listed.write_text(plants)
    words = call("examples/loop/motor.toml", listed, 0, 100, 1000)
    ran = subprocess.run(words, cwd=TOP, capture_output=True, text=True)
    assert (ran.returncode, ran.stdout, ran.stderr) == (2, "", FAULT.format(line=line))


def test_a_list_that_is_too_long(tmp_path: Path) -> None:
    listed = tmp_path / "plants.txt"
    listed.write_bytes(b"0 motor 3\n" + b"\n" * (64 << 20))
    words = call("examples/loop/motor.toml", listed, 0, 100, 1000)
    ran = subprocess.run(words, cwd=TOP, capture_output=True, text=True)
    assert (ran.returncode, ran.stdout, ran.stderr) == (
        2,
        "",
        "loop_cli: the list of plants has more than 64 megabytes\n",
    )


USAGE = "loop_cli: usage: loop_cli SETUP --plants FILE --thread i --every n --cycles n\n"


@pytest.mark.parametrize(
    "wrong",
    [{"--thread": "8"}, {"--every": "0"}, {"--cycles": "4000000001"}, {"--cycles": "1e3"}, {"--plants": ""}, {"--turns": "1"}],
)  # fmt: skip
def test_arguments_that_give_no_run(wrong: dict[str, str]) -> None:
    options = {
        "--plants": "examples/loop/plants.txt",
        "--thread": "0",
        "--every": "100",
        "--cycles": "1000",
        **wrong,
    }
    words = [
        str(PROGRAM),
        "examples/loop/motor.toml",
        *(text for pair in options.items() for text in pair),
    ]
    ran = subprocess.run(words, cwd=TOP, capture_output=True, text=True)
    assert (ran.returncode, ran.stdout, ran.stderr) == (2, "", USAGE)


def test_options_in_another_order_and_with_equals(tmp_path: Path) -> None:
    words = [
        "--cycles=1000",
        "--every",
        "100",
        "examples/loop/motor.toml",
        "--thread=0",
        "--plants",
        "examples/loop/plants.txt",
    ]
    ran = [
        subprocess.run(it, cwd=TOP, capture_output=True, check=True).stdout
        for it in (
            [str(PROGRAM), *words],
            call("examples/loop/motor.toml", "examples/loop/plants.txt", 0, 100, 1000),
        )
    ]
    assert ran[0] == ran[1] and ran[0]


def test_a_thread_without_a_plant_has_the_inputs_of_its_setup(tmp_path: Path) -> None:
    (tmp_path / "none.txt").write_text("")
    words = call("examples/drive.toml", tmp_path / "none.txt", 0, 100, 77)
    ran = subprocess.run(words, cwd=TOP, capture_output=True)
    assert (ran.returncode, ran.stdout) == (0, (TOP / "examples/drive.trace").read_bytes())
