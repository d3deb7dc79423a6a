"""Plants in other processes, by fp_plant: their traces, and what goes wrong."""
from __future__ import annotations

import os
import shutil
import signal
import subprocess
import sys
import time
from io import BytesIO
from pathlib import Path

import pytest
from fptools.testing.common import TOOLS, TOP, Tool
from fptools.files.trace import read_trace
from fptools.launch.tests.scripts import Checkout

PROGRAM = Path(os.environ.get("LOOP_CLI", TOP / "crates/loop_cli/out/loop_cli"))
"""The built program."""

needs_program = pytest.mark.skipif(
    not PROGRAM.is_file(), reason="no loop_cli: build it by rt ci, or name it by LOOP_CLI"
)
SETUP, EVERY, CYCLES = "examples/loop/motor.toml", 100, 160_000
"""A run in which the load of the motor comes."""

PORT = 0x4000_0000
ECHO = "for line in sys.stdin: print(line.split()[1], flush=True)"


def words(*options: object, cycles: int = CYCLES, every: int = EVERY) -> list[str]:
    """The words of a call, up to the command."""
    numbers = ["--thread", 0, "--every", every, "--cycles", cycles]
    return list(map(str, ("fp_plant", SETUP, *numbers, *options, "--")))


def plant(code: str) -> list[str]:
    """The command of a plant in Python."""
    return [sys.executable, "-c", f"import sys, time, os\n{code}"]


def proved(folder: Path, plants: str, cycles: int = CYCLES, every: int = EVERY) -> str:
    """The trace of the proved driver with a list of plants."""
    (folder / "plants.txt").write_text(plants)
    call = [str(PROGRAM), SETUP, "--plants", str(folder / "plants.txt")]
    call += ["--thread", "0", "--every", str(every), "--cycles", str(cycles)]
    ran = subprocess.run(call, cwd=TOP, capture_output=True, text=True, check=True)
    return ran.stdout


@pytest.fixture(scope="session")
def motor(tmp_path_factory: pytest.TempPathFactory) -> str:
    """The plant in C."""
    if shutil.which("cc") is None:
        pytest.skip("no cc (Debian: gcc)")
    program = tmp_path_factory.mktemp("motor") / "motor"
    source = TOP / "examples/plant/motor.c"
    options = ["-O2", "-Wall", "-Wextra", "-Werror"]
    subprocess.run(["cc", *options, "-o", program, source], check=True)
    return str(program)


@needs_program
def test_the_motor_in_c_gives_the_trace_of_the_proved_motor(
    motor: str, tool: Tool, tmp_path: Path
) -> None:
    ran = tool(*words("--check"), motor)
    said = "fp_plant: the replay of 1600 words by the proved loop gives the same trace\n"
    assert (ran.returncode, ran.stderr) == (0, said)
    assert ran.stdout == proved(tmp_path, "0 motor 1000\n")


@needs_program
def test_the_motor_in_python_gives_the_same(tool: Tool, tmp_path: Path) -> None:
    trace = tmp_path / "a.trace"
    ran = tool(*words("-o", trace), sys.executable, "examples/plant/motor.py")
    assert (ran.returncode, ran.stdout, ran.stderr) == (0, "", "")
    assert trace.read_text() == proved(tmp_path, "0 motor 1000\n")


@needs_program
@pytest.mark.parametrize(("every", "cycles"), [(1, 200), (7, 100), (100, 1000), (1000, 999)])
def test_an_echo_is_asked_at_cycle_0_and_each_some_cycles(
    every: int, cycles: int, tool: Tool, tmp_path: Path
) -> None:
    log = tmp_path / "log"
    ran = tool(*words("--check", "--log", log, every=every, cycles=cycles), *plant(ECHO))
    assert ran.returncode == 0
    rows = [list(map(int, line.split())) for line in log.read_text().splitlines()]
    assert [row[0] for row in rows] == list(range(0, cycles, every))
    assert all(drive == answer for _, drive, answer in rows)


@needs_program
@pytest.mark.parametrize("every", [1, 4])
def test_each_store_is_exchanged(every: int, tool: Tool, tmp_path: Path) -> None:
    """The thread has each fourth cycle, so that four cycles have one of its stores at most."""
    log, cycles = tmp_path / "log", 8000
    ran = tool(*words("--log", log, every=every, cycles=cycles), *plant(ECHO))
    assert ran.returncode == 0
    events = read_trace(BytesIO(ran.stdout.encode()))
    stores = [(it.cycle, it.stored.value) for it in events if it.stored and it.store == PORT]
    rows = [list(map(int, line.split())) for line in log.read_text().splitlines()]
    changes = {cycle: word for cycle, word, _ in rows}
    for cycle, value in stores:
        known = -(-(cycle + 4) // every) * every
        assert known >= cycles or changes[known] == value
    assert len(stores) > 5


@needs_program
def test_other_threads_have_listed_plants(tool: Tool, tmp_path: Path) -> None:
    others = tmp_path / "others.txt"
    others.write_text("1 table 3 1 4 1 5\n5 body 100\n")
    command = [sys.executable, "examples/plant/motor.py"]
    ran = tool(*words("--plants", others, "--check", cycles=20_000), *command)
    assert ran.returncode == 0
    listed = others.read_text() + "0 motor 1000\n"
    assert ran.stdout == proved(tmp_path, listed, cycles=20_000)


@needs_program
def test_words_with_a_sign_blanks_and_lines_ahead(tool: Tool, tmp_path: Path) -> None:
    log = tmp_path / "log"
    code = "print(' -1 \\r\\n+5\\n4294967295\\n-2147483648', flush=True); sys.stdin.read()"
    ran = tool(*words("--log", log, cycles=400), *plant(code))
    assert (ran.returncode, ran.stderr) == (0, "")
    answers = [line.split()[2] for line in log.read_text().splitlines()]
    assert answers == ["4294967295", "5", "4294967295", "2147483648"]


@needs_program
@pytest.mark.parametrize(
    ("code", "said"),
    [
        ("sys.exit(3)", "the plant at the pipe ended before the run (its status is 3)"),
        (
            "input(); print(0, flush=True); sys.exit(4)",
            "the plant at the pipe ended before the run"
            " (its status is 4, its last answer was in cycle 0)",
        ),
        ("input(); print('1.5', flush=True); time.sleep(60)", "answered no word"),
        ("input(); print(flush=True); time.sleep(60)", "answered no word of 32 bits"),
        ("input(); print(1 << 32, flush=True); time.sleep(60)", "answered no word of 32 bits"),
        ("input(); print('5' * 100, flush=True); time.sleep(60)", "answered no word of 32 bits"),
        ("os.write(1, b'\\xff\\n'); time.sleep(60)", "answered no word of 32 bits"),
        ("input(); os.write(1, b'5' * (1 << 20)); time.sleep(60)", "answered no word of 32 bits"),
        ("input(); os.write(1, b'5')", "ended before the run (its status is 0)"),
        ("os.close(1); time.sleep(60)", "the plant at the pipe ended before the run"),
        ("input(); os.write(1, b'5'); time.sleep(60)", "the plant gave no answer in 0.5 seconds"),
        ("time.sleep(60)", "the plant gave no answer in 0.5 seconds"),
        (
            "import signal; signal.signal(signal.SIGTERM, signal.SIG_IGN); time.sleep(60)",
            "the plant gave no answer in 0.5 seconds",
        ),
    ],
)
def test_a_plant_that_breaks_off(code: str, said: str, tool: Tool, tmp_path: Path) -> None:
    number = tmp_path / "number"
    note = f"open({str(number)!r}, 'w').write(str(os.getpid()))\n"
    timeout = 0.5 if "gave no answer" in said else 30
    begun = time.monotonic()
    ran = tool(*words("--timeout", timeout), *plant(note + code))
    assert ran.returncode == 1 and said in ran.stderr and ran.stderr.count("\n") == 1
    assert time.monotonic() - begun < 20
    if number.is_file():
        assert not Path(f"/proc/{number.read_text()}").exists()


@needs_program
def test_an_interrupt_ends_both_and_their_children(tmp_path: Path) -> None:
    """The plant is a shell that has a child of its own."""
    numbers = tmp_path / "numbers"
    shell = f"sleep 100 & echo $! $$ > {numbers}.new; mv {numbers}.new {numbers}; read line; wait"
    call = [sys.executable, str(TOOLS / words()[0]), *words()[1:], "sh", "-c", shell]
    with subprocess.Popen(call, cwd=TOP, stdout=subprocess.PIPE, stderr=subprocess.PIPE) as ran:
        until = time.monotonic() + 30
        while not numbers.is_file() and time.monotonic() < until:
            time.sleep(0.05)
        ran.send_signal(signal.SIGINT)
        out, err = ran.communicate(timeout=30)
    assert (ran.returncode, out, err) == (130, b"", b"")
    for number in numbers.read_text().split():
        until = time.monotonic() + 5
        while is_running(number) and time.monotonic() < until:
            time.sleep(0.05)
        assert not is_running(number)


def is_running(number: str) -> bool:
    """Whether a process is there and isn't dead."""
    try:
        return Path(f"/proc/{number}/stat").read_text().rsplit(")", 1)[1].split()[0] != "Z"
    except OSError:
        return False


@needs_program
def test_a_reader_that_stops_ends_both(tmp_path: Path) -> None:
    call = [sys.executable, str(TOOLS / words()[0]), *words()[1:], *plant(ECHO)]
    with subprocess.Popen(call, cwd=TOP, stdout=subprocess.PIPE, stderr=subprocess.PIPE) as ran:
        assert ran.stdout and ran.stderr
        ran.stdout.readline()
        ran.stdout.close()
        assert ran.stderr.read() == b""
    assert ran.returncode == 0


@needs_program
@pytest.mark.parametrize(
    ("call", "said"),
    [
        (["--", "/none/plant"], "fp_plant: /none/plant: No such file or directory"),
        (["--plants", "/none", "--", "true"], "fp_plant: /none: No such file"),
        (["-o", "/none/a", "--", "true"], "fp_plant: /none/a: No such file"),
        (["--program", "/none", "--", "true"], "fp_plant: /none isn't built"),
    ],
)
def test_what_can_not_be_run(call: list[str], said: str, tool: Tool) -> None:
    ran = tool(*words()[:-1], *call)
    assert ran.returncode == 2 and ran.stderr.startswith(said) and ran.stderr.count("\n") == 1


@needs_program
def test_a_list_with_a_second_plant_of_the_thread_is_refused(tool: Tool, tmp_path: Path) -> None:
    others = tmp_path / "others.txt"
    others.write_text("# motors\n0 body 100\n")
    ran = tool(*words("--plants", others), "cat")
    assert ran.returncode == 2 and ran.stderr.startswith("fp_plant: line 2 of the list isn't")


@pytest.mark.parametrize(
    ("call", "said"),
    [
        ([SETUP, "--thread", 0, "--every", 1, "--cycles", 9], "the plant's command is missing"),
        ([SETUP, "--thread", 8, "--every", 1, "--cycles", 9, "--", "true"], "'8' is not 0 to 7"),
        ([SETUP, "--thread", 0, "--every", 0, "--cycles", 9, "--", "true"], "'0' is not 1 to"),
        ([SETUP, "--thread", 0, "--every", 1, "--", "true"], "required: --cycles"),
    ],
)
def test_wrong_arguments(call: list[object], said: str, tool: Tool) -> None:
    ran = tool("fp_plant", *call)
    assert ran.returncode == 2 and said in ran.stderr and "Traceback" not in ran.stderr


def test_the_program_is_built_once_by_the_script(tmp_path: Path) -> None:
    """Where none is built: a stand-in for `rt` leaves one that names its words and ends."""
    checkout = Checkout(tmp_path / "top", crate="loop_cli")
    (checkout.folder / "crates/loop_cli/src").mkdir(parents=True)
    (checkout.folder / "crates/loop_cli/src/lib.rt").write_text("")
    crates = checkout.folder / "crates.txt"
    crates.write_text(crates.read_text() + "loop_cli: middle\n")
    said = tmp_path / "said"
    program = f'#!/bin/sh\necho "${{0##*/}} $4 $5 $6 $7 $8 $9" >>{said}\nexit 9\n'
    environment = {**checkout.environment, "RT_PROGRAM": program, "FLEXPRET_PROCESSORS": "1"}
    environment.pop("LOOP_CLI", None)
    call = [sys.executable, "tools/fp_plant", str(TOP / SETUP), *words()[2:], *plant(ECHO)]
    first = ["middle", "beside", "low", "loop_cli"]
    for log in (first, first[:0]):
        checkout.log.write_text("")
        ran = subprocess.run(
            call, cwd=checkout.folder, env=environment, capture_output=True, text=True, check=False
        )
        built = [it.split()[1] for it in checkout.log.read_text().splitlines() if "done" in it]
        assert (ran.returncode, sorted(built)) == (2, sorted(log)), ran.stderr
    assert said.read_text() == "loop_cli --thread 0 --every 100 --cycles 160000\n" * 2


def test_a_program_that_cannot_be_built(tmp_path: Path) -> None:
    """Then fp_plant ends with 2, and the last line says so."""
    checkout = Checkout(tmp_path / "top", crate="loop_cli")
    (checkout.folder / "crates/loop_cli/src").mkdir(parents=True)
    (checkout.folder / "crates/loop_cli/src/lib.rt").write_text("")
    environment = {**checkout.environment, "RT_STATUS": "1"}
    environment.pop("LOOP_CLI", None)
    call = [sys.executable, "tools/fp_plant", str(TOP / SETUP), *words()[2:], *plant(ECHO)]
    ran = subprocess.run(
        call, cwd=checkout.folder, env=environment, capture_output=True, text=True, check=False
    )
    last = ran.stderr.splitlines()[-1]
    assert (ran.returncode, last) == (2, "fp_plant: without loop_cli there is no run"), ran.stderr
