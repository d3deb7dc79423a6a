"""Sessions of gdb itself with a program of examples/c that was compiled with -Og -g."""
from __future__ import annotations

import json
import os
import re
import shutil
import signal
import subprocess
import time
from dataclasses import dataclass
from pathlib import Path
from typing import Iterator

import pytest
from fptools.testing.common import TOP, TOOLS, document
from fptools.gdb.tests.test_gdb import events_of
from fptools.gdb.tests.test_gdb_ends import processes_of

pytest_plugins = ["fptools.gdb.tests.fixtures"]

GDB = "gdb-multiarch"
PATIENCE = "set remotetimeout 60"  # seconds, for a busy machine
SECONDS = 120
CONNECT = "target remote | tools/fp_gdb own/pid.toml --elf own/pid.elf"
NEEDED = {
    GDB: "gdb-multiarch",
    "riscv64-unknown-elf-gcc": "gcc-riscv64-unknown-elf",
    "make": "make",
}

LACKING = [
    f"{command} isn't installed (Debian: {package})"
    for command, package in NEEDED.items()
    if shutil.which(command) is None
]
pytestmark = pytest.mark.skipif(bool(LACKING), reason=", ".join(LACKING))


@dataclass(frozen=True)
class Folder:
    """A folder with the program as own/pid.elf, its image and its setup, and the tools."""

    path: Path
    program: str

    @property
    def environment(self) -> dict[str, str]:
        return {**os.environ, "FLEXPRET": self.program, "HOME": str(self.path)}

    def gdb(self, *commands: str) -> str:
        """What gdb writes for some commands, each behind a line with it; an error ends none."""
        words = [it for one in commands for it in ("-ex", f"echo > {one}\\n", "-ex", one)]
        ran = subprocess.run(
            [GDB, "-nx", "--batch", "-ex", PATIENCE, *words, "own/pid.elf"],
            cwd=self.path, env=self.environment, stdin=subprocess.DEVNULL, stdout=subprocess.PIPE,
            stderr=subprocess.STDOUT, text=True, check=False, timeout=SECONDS,
        )  # fmt: skip
        return ran.stdout

    def symbol(self, name: str) -> int:
        said = subprocess.run(
            ["riscv64-unknown-elf-nm", self.path / "own/pid.elf"], stdout=subprocess.PIPE, text=True
        )
        found = re.search(rf"^([0-9a-f]{{8}}) \w {name}$", said.stdout, re.M)
        assert found
        return int(found[1], 16)

    def stores(self, name: str, cycles: int) -> list[int]:
        """The cycles of T0's stores to a variable."""
        address = self.symbol(name)
        events = events_of(self.program, self.path / "own/pid.toml", 0, cycles)
        return [it.cycle for it in events if it.store == address]


@pytest.fixture(scope="module")
def folder(flexpret: str, tmp_path_factory: pytest.TempPathFactory) -> Folder:
    path = tmp_path_factory.mktemp("gdb")
    shutil.copytree(TOP / "examples/c", path / "own")
    (path / "tools").symlink_to(TOOLS)
    make = ["make", "-s", "-C", "own"]
    subprocess.run([*make, "clean"], cwd=path, check=True)
    subprocess.run([*make, "OPTIONS=-Og -g"], cwd=path, check=True)
    made = subprocess.run(
        [flexpret, "elf", "own/pid.elf"], cwd=path, capture_output=True, check=True
    )
    (path / "own/pid.fpx").write_bytes(made.stdout)
    # The image by its whole name, so that the setup may be called from each folder.
    text = (TOP / "examples/c/pid.toml").read_text()
    image = str(path / "own/pid.fpx")
    (path / "own/pid.toml").write_text(text.replace("examples/c/pid.fpx", image))
    return Folder(path, flexpret)


def line_of(folder: Folder, text: str) -> int:
    """The number of the line of the controller's source that has a text."""
    lines = (folder.path / "own/t0_pid.c").read_text().splitlines()
    (found,) = (number for number, line in enumerate(lines, 1) if text in line)
    return found


def numbers(text: str, name: str) -> list[int]:
    """The numbers behind `NAME = `, in order."""
    return [int(it) for it in re.findall(rf"^{name} = (-?\d+)", text, re.M)]


def test_breakpoints_in_lines_of_c_and_local_variables(folder: Folder) -> None:
    line = line_of(folder, "integral = limited(")
    said = folder.gdb(
        CONNECT, f"break t0_pid.c:{line - 1}", "continue", "p measured", "bt", "p samples", "next",
        "next", "info locals", "p integral", "finish", "p $cycle", "p $now", "p/x $mhartid",
    )  # fmt: skip
    hit = f'Thread 1 "T0" hit Breakpoint 1, drive_for (measured=0) at t0_pid.c:{line - 1}\n'
    assert f"{hit}{line - 1}\t" in said
    assert f"> next\n{line}\t" in said and f"> next\n{line + 1}\t" in said
    assert re.search(r"^#1 .* in main0 \(\) at t0_pid.c", said, re.M)
    assert "$1 = 0\n" in said and "$2 = {0, 0, 0, 0, 0, 0, 0, 0}\n" in said
    assert f"\nerror = {16 * 65536}\n" in said  # 16.0, as nothing was measured yet
    assert f"$3 = {2 * 65536}\n" in said  # an eighth of 16.0
    cycle, now, hart = re.findall(r"^\$[5-7] = (\w+)$", said, re.M)
    assert int(now) == 10 * int(cycle) and hart == "0x0"


def test_eight_threads(folder: Folder) -> None:
    said = folder.gdb(
        CONNECT, "break fill", "continue", "info threads", "delete", "break main1", "continue",
        "thread 1", "bt 1", "delete", "break step_end", "continue", "stepi", "info threads",
    )  # fmt: skip
    first, last = said.split("> info threads\n")[1:]
    for thread in range(8):
        kind = "hard, slot 0" if thread == 0 else "hard, slot 2" if thread == 1 else "soft"
        assert re.search(
            rf'^[* ] {thread + 1} +Thread {thread + 1} "T{thread}" \({kind}, awake\)', first, re.M
        )
    assert re.search(r'^Thread \d "T[2-7]" hit Breakpoint 1, fill \(\)', said, re.M)
    assert re.search(r'^Thread 2 "T1" hit Breakpoint 2, ', said, re.M)
    assert re.search(r"^> thread 1\n\[Switching to thread 1", said, re.M)
    assert re.search(r'"T0" \(hard, slot 0, asleep until \d+ ns \(cycle \d+\)\)', last)


def test_a_step_back_in_a_selected_thread(folder: Folder) -> None:
    said = folder.gdb(
        CONNECT, "break drive_for", "continue", "continue", "thread 2", "reverse-stepi",
        "p $mhartid", "info threads", "thread apply all p $pc", "reverse-stepi", "p $mhartid",
    )  # fmt: skip
    assert re.findall(r"^> p \$mhartid\n\$\d+ = (\d)$", said, re.M) == ["1", "1"]
    assert "SIGTRAP" not in said


def test_a_busy_machine_needs_the_patience_of_the_page() -> None:
    assert f"`{PATIENCE}`" in document("DEBUG.md").read_text()


def test_back_to_the_store_that_wrote_a_wrong_value(folder: Folder) -> None:
    said = folder.gdb(
        CONNECT, "break step_end if integral > 6 * 65536", "continue", "p integral",
        "watch integral", "reverse-continue", "p $cycle", "p integral", "reverse-continue",
        "p $cycle", "continue", "p $cycle", "p integral",
    )  # fmt: skip
    cycles = folder.stores("integral", 5000)
    assert said.count('Thread 1 "T0" hit Hardware watchpoint 2: integral') == 3
    wrong, at, before, earlier, behind, again = (
        int(it) for it in re.findall(r"^\$\d = (\d+)$", said, re.M)
    )
    assert wrong > 6 * 65536 >= before
    assert at in cycles and earlier == max(it for it in cycles if it < at) and behind == earlier + 1
    assert again == before
    assert f"Old value = {wrong}\nNew value = {before}\n" in said
    assert re.search(rf"^{line_of(folder, 'integral = limited(')}\t", said, re.M)


def test_steps_in_lines_back_and_forth(folder: Folder) -> None:
    said = folder.gdb(
        CONNECT, "break drive_for", "continue", "p $cycle", "next", "reverse-next", "p $cycle",
        "stepi", "stepi", "reverse-stepi", "reverse-stepi", "p $cycle", "reverse-step", "p $cycle",
        "next", "step", "delete", "reverse-finish", "next", "reverse-next", "reverse-continue",
        "stepi",
    )  # fmt: skip
    first, second, third, earlier = map(int, re.findall(r"^\$\d = (\d+)$", said, re.M))
    assert first == second == third > earlier
    assert re.search(r"> reverse-step\n.*\bsmoothed \(", said)
    assert re.search(r"> reverse-finish\n.*\bmain0 \(\) at", said)
    assert "> reverse-continue\n\nNo more reverse-execution history.\n" in said
    assert re.search(r"> stepi\n0x0{7}4", said.rsplit("> reverse-continue", 1)[1])


def test_the_end_of_the_run_and_a_cycle(folder: Folder) -> None:
    said = folder.gdb(
        f"{CONNECT} --cycles 5000", "continue", "p $cycle", "monitor cycle 1234", "p $cycle",
        "continue", "p $cycle", "monitor cycle 9000", "rwatch last_error", "continue", "delete",
        "watch next_sample thread 1", "continue", "delete", "awatch next_sample", "continue",
    )  # fmt: skip
    assert re.findall(r"^\$\d = (\d+)$", said, re.M) == ["5000", "5000", "1234"]
    assert "No more reverse-execution history." in said
    assert "continue goes to cycle 1234" in said and 'Thread 1 "T0" received signal SIGINT' in said
    assert "monitor cycle: this run ends at cycle 5000" in said
    assert re.search(r"hit Hardware read watchpoint \d: last_error\n\nValue = \d+", said)
    assert re.search(
        r"hit Hardware watchpoint \d: next_sample\n\nOld value = \d+\nNew value = \d+", said
    )


def test_what_is_refused(folder: Folder) -> None:
    said = folder.gdb(
        CONNECT, "set var integral = 5", "set var $x5 = 3", "set var $pc = 8", "call fill()",
        "x/wx 0x50000000", "break *0x20000000", "continue", "delete", "stepi", "run",
    )  # fmt: skip
    assert f"Cannot access memory at address {folder.symbol('integral'):#x}" in said
    assert re.search(r'Could not write register "t0".*registers and memory aren\'t written', said)
    assert re.search(r'Could not write register "pc"', said)
    assert "Cannot access memory at address 0x50000000" in said
    assert "Cannot insert breakpoint 1." in said
    assert "> stepi\n0x00000004" in said


@pytest.mark.parametrize(
    ("old", "new", "options", "told"),
    [
        ('"S", "T1"', '"X", "T1"', "", r"own/bad.toml:10: slots\[1\]: 'X' is not one of"),
        (
            "",
            "",
            "--elf tools/fptools/testing/calls.elf",
            r"pid.fpx isn't made of tools/fptools/testing/calls.elf",
        ),
        ("pid.fpx", "gone.fpx", "", r"gone.fpx"),
    ],
)
def test_a_refusal_is_shown(folder: Folder, old: str, new: str, options: str, told: str) -> None:
    text = (folder.path / "own/pid.toml").read_text()
    (folder.path / "own/bad.toml").write_text(text.replace(old, new))
    said = folder.gdb(f"target remote | tools/fp_gdb own/bad.toml {options}", "info threads")
    assert re.search(f"^(fp_gdb: )?.*{told}", said, re.M)
    assert re.search(f"Remote failure reply: E.fp_gdb: .*{told}", said)
    assert "No threads." in said
    assert ends(Path("own/bad.toml"))


class Machine:
    """gdb with its machine interface, as editors use it."""

    def __init__(self, folder: Folder) -> None:
        self.child = subprocess.Popen(
            [GDB, "-nx", "-q", "-i=mi", "-iex", PATIENCE], cwd=folder.path, env=folder.environment,
            stdin=subprocess.PIPE, stdout=subprocess.PIPE, stderr=subprocess.STDOUT, text=True,
        )  # fmt: skip

    def send(self, command: str) -> None:
        assert self.child.stdin
        self.child.stdin.write(f"{command}\n")
        self.child.stdin.flush()

    def until(self, pattern: str) -> str:
        """The lines up to one that has a pattern."""
        assert self.child.stdout
        said = ""
        for line in self.child.stdout:
            said += line
            if re.search(pattern, line):
                return said
        raise AssertionError(said)

    def ask(self, command: str, pattern: str = r"^\^") -> str:
        self.send(command)
        return self.until(pattern)


@pytest.fixture
def machine(folder: Folder) -> Iterator[Machine]:
    made = Machine(folder)
    yield made
    made.child.kill()
    made.child.wait()
    for pipe in (made.child.stdin, made.child.stdout):
        assert pipe
        pipe.close()


def test_the_machine_interface_that_editors_use(folder: Folder, machine: Machine) -> None:
    page = (TOOLS / "README.md").read_text()
    settings = json.loads(page.split("```json\n")[1].split("```")[0])
    (configuration,) = settings["configurations"]
    assert configuration["miDebuggerPath"].endswith(GDB)
    for step in configuration["customLaunchSetupCommands"]:
        said = machine.ask(step["text"].replace("${workspaceFolder}", str(folder.path)))
        assert "^done" in said or "^connected" in said, said
    assert 'features=["reverse"]' in machine.ask("-list-target-features")
    assert "^done" in machine.ask("-break-insert drive_for")
    assert 'reason="breakpoint-hit"' in machine.ask("-exec-continue", r"^\*stopped")
    assert machine.ask("-thread-info").count('target-id="Thread ') == 8
    there = machine.ask("-exec-next", r"^\*stopped")
    assert 'reason="end-stepping-range"' in there
    assert 'func="drive_for"' in machine.ask("-exec-next --reverse", r"^\*stopped")
    assert 'func="drive_for"' not in machine.ask("-exec-step --reverse", r"^\*stopped")
    assert "variables=[" in machine.ask("-stack-list-variables --all-values")
    machine.send("-gdb-exit")
    assert machine.child.wait(SECONDS) == 0


@pytest.mark.parametrize("mode", ["gud-gdb", "gdb"])
def test_emacs_stops_and_steps_both_ways(folder: Folder, mode: str) -> None:
    """By the commands that the page shows."""
    if shutil.which("emacs") is None:
        pytest.skip("emacs isn't installed (Debian: emacs-nox)")
    page = (TOOLS / "README.md").read_text()
    call = {
        "gud-gdb": "gdb-multiarch --fullname own/pid.elf",
        "gdb": "gdb-multiarch -i=mi own/pid.elf",
    }[mode]
    assert f"`M-x {mode}` with `{call}`" in page and f"(gdb) cd ..\n    (gdb) {CONNECT}\n" in page
    line = line_of(folder, "integral = limited(") - 1
    environment = folder.environment | {
        "MODE": mode,
        "CALL": call,
        "CONNECT": CONNECT,
        "LINE": str(line),
    }
    ran = subprocess.run(
        ["emacs", "--batch", "-Q", "-l", str(TOOLS / "fptools/gdb/tests/emacs.el")], cwd=folder.path, env=environment,
        capture_output=True, text=True, check=False, timeout=6 * SECONDS,
    )  # fmt: skip
    assert ran.stdout.splitlines() == [
        f"line {line}",
        f"line {line + 1}",
        f"line {line}",
    ], ran.stderr


def connected(folder: Folder, machine: Machine, name: str) -> Path:
    """A session with a setup of its own, in the middle of a long run."""
    setup = folder.path / name
    setup.write_text((folder.path / "own/pid.toml").read_text())
    assert "^connected" in machine.ask(
        f"-target-select remote | tools/fp_gdb {setup} --cycles 3000000000"
    )
    machine.ask("-exec-continue", r"^\*running")
    time.sleep(0.5)
    assert processes_of(setup)
    return setup


def ends(setup: Path) -> bool:
    """Whether no process of a setup is left soon."""
    until = time.monotonic() + 20
    while processes_of(setup) and time.monotonic() < until:
        time.sleep(0.1)
    return processes_of(setup) == []


def test_an_interrupt_in_a_long_continue(folder: Folder, machine: Machine) -> None:
    setup = connected(folder, machine, "interrupted.toml")
    machine.child.send_signal(signal.SIGINT)
    assert 'signal-name="SIGINT"' in machine.until(r"^\*stopped")
    assert "^done" in machine.ask("-data-evaluate-expression $cycle")
    assert 'reason="end-stepping-range"' in machine.ask("-exec-step-instruction", r"^\*stopped")
    machine.send("-gdb-exit")
    machine.child.wait(SECONDS)
    assert ends(setup)


def test_gdb_killed_in_the_middle(folder: Folder, machine: Machine) -> None:
    setup = connected(folder, machine, "killed.toml")
    machine.child.kill()
    machine.child.wait()
    assert ends(setup)
