"""The files that ./flexpret reads and writes, and what it passes on."""
from __future__ import annotations

import os
import resource
import signal
import subprocess
import time
from collections.abc import Callable
from pathlib import Path

import pytest
from fptools.testing.common import TOP
from fptools.program.status import NOT_BUILT
from fptools.launch.tests.scripts import Checkout

pytest_plugins = ["fptools.launch.tests.fixtures"]


def test_a_link_to_the_script_from_elsewhere(
    each_script: Checkout, tmp_path_factory: pytest.TempPathFactory
) -> None:
    each_script.build()
    link = tmp_path_factory.mktemp("else where") / "-fp"
    link.symlink_to(each_script.folder / each_script.script)
    ran = subprocess.run(
        [link, *each_script.words],
        env=each_script.environment,
        input="",
        capture_output=True,
        text=True,
        check=False,
    )
    assert (ran.returncode, ran.stdout, ran.stderr) == (
        0,
        f"{len(each_script.words)}:{' '.join(each_script.words)}\n",
        "",
    )


@pytest.mark.parametrize("shell", [["sh"], ["bash"], ["bash", "--posix"]])
def test_the_script_by_another_shell(each_script: Checkout, shell: list[str]) -> None:
    each_script.build()
    ran = subprocess.run(
        [*shell, f"./{each_script.script}", *each_script.words], cwd=each_script.folder, env=each_script.environment, input="", capture_output=True,
        text=True, check=False,
    )  # fmt: skip
    assert (ran.returncode, ran.stdout, ran.stderr) == (
        0,
        f"{len(each_script.words)}:{' '.join(each_script.words)}\n",
        "",
    )


@pytest.mark.parametrize("status", [0, 1, 3, 6, 9, 10])
def test_statuses_are_the_programs(each_script: Checkout, status: int) -> None:
    each_script.build()
    ran = each_script.run(*each_script.words, SEEN=str(status), LINE="a line")
    assert (ran.returncode, ran.stdout, ran.stderr) == (status, "a line\n", "")


def test_standard_input_and_a_closed_output_are_the_programs(each_script: Checkout) -> None:
    each_script.build()
    assert each_script.run(*each_script.words, given="in\n").stdout.startswith("in\n")
    call = f"./{each_script.script} {' '.join(each_script.words)} >&-"
    ran = subprocess.run(
        ["bash", "-c", call], cwd=each_script.folder, env={**each_script.environment, "SEEN": "3", "COMPLAINT": "no output"}, capture_output=True,
        text=True, check=False,
    )  # fmt: skip
    assert (ran.returncode, ran.stderr) == (3, "no output\n")


def test_a_reader_that_stops_ends_it_without_a_word(each_script: Checkout) -> None:
    each_script.build()
    named = {"SEEN": "8", "COMPLAINT": f"{each_script.script.replace('-', '_')}: write failed"}
    call = (
        f"./{each_script.script} {' '.join(each_script.words)} | head -n 1; echo ${{PIPESTATUS[0]}}"
    )
    ran = subprocess.run(
        ["bash", "-c", call],
        cwd=each_script.folder,
        env={**each_script.environment, **named},
        capture_output=True,
        text=True,
        check=False,
    )
    assert (ran.stdout, ran.stderr) == ("8\n", "")
    with open("/dev/full", "w") as full:
        refused = subprocess.run(
            [each_script.folder / each_script.script, *each_script.words], env={**each_script.environment, **named}, stdout=full, stderr=subprocess.PIPE,
            text=True, check=False,
        )  # fmt: skip
    assert (refused.returncode, refused.stderr) == (8, f"{named['COMPLAINT']}\n")


def test_the_program_ends_with_the_script(checkout: Checkout) -> None:
    checkout.build()
    script = checkout.start(SEEN="sleep")
    assert script.stdout
    program = int(script.stdout.readline())
    script.send_signal(signal.SIGTERM)
    assert script.wait(10) == -signal.SIGTERM
    for _ in range(100):
        if not Path(f"/proc/{program}").exists():
            return
        time.sleep(0.05)
    raise AssertionError("the program still runs")


def processor_time(call: Callable[[], object]) -> float:
    """The least processor time of ten calls, with all that each calls, in seconds: on a busy machine some calls take twice as long."""
    times = []
    for _ in range(10):
        before = resource.getrusage(resource.RUSAGE_CHILDREN)
        call()
        after = resource.getrusage(resource.RUSAGE_CHILDREN)
        times.append(after.ru_utime + after.ru_stime - before.ru_utime - before.ru_stime)
    return min(times)


def test_a_call_costs_at_most_40_milliseconds_of_processor_time(each_script: Checkout) -> None:
    each_script.build()
    each_script.run(*each_script.words)

    def spent(program: Path) -> float:
        words = [str(program), *each_script.words]
        return processor_time(
            lambda: subprocess.run(
                words,
                env=each_script.environment,
                stdin=subprocess.DEVNULL,
                stdout=subprocess.DEVNULL,
                check=True,
            )
        )

    alone = spent(each_script.out / each_script.out.parent.name)
    assert spent(each_script.folder / each_script.script) - alone < 0.04


def test_a_call_of_bound_costs_at_most_100_milliseconds_of_processor_time(
    checkout: Checkout,
) -> None:
    checkout.build()
    words = ("bound", "examples/sum.toml", "--thread", "0", "--from", "0x10", "--to", "0x3c")
    named = {**checkout.environment, "SEEN": "0", "LINE": "bound 184"}

    def call(program: Path) -> None:
        ran = subprocess.run([program, *words], cwd=TOP, env=named, capture_output=True, check=True)
        assert (ran.stdout, ran.stderr) == (b"bound 184\n", b"")

    alone = processor_time(lambda: call(checkout.out / "flexpret_cli"))
    assert processor_time(lambda: call(checkout.folder / "flexpret")) - alone < 0.1


def test_the_file_of_an_option_is_replaced_only_by_an_answer(
    checkout: Checkout, tmp_path: Path
) -> None:
    checkout.build()
    for name in ("x.fpx", "a b.fpx", "-o"):
        ran = checkout.run("asm", "x.s", "-o", name)
        assert (ran.returncode, ran.stdout, ran.stderr) == (0, "", "")
        assert (tmp_path / name).read_text() == "2:asm x.s\n"
        assert (tmp_path / name).stat().st_mode & 0o777 == 0o666 & ~umask()
        ran = checkout.run("elf", "x.elf", "-o", name, SEEN="5", LINE="refused source 1 4 Operands")
        assert (ran.returncode, ran.stdout, ran.stderr) == (5, "", "refused source 1 4 Operands\n")
        assert (tmp_path / name).read_text() == "2:asm x.s\n"
    assert not list(tmp_path.glob("*.fpx.*"))


def umask() -> int:
    now = os.umask(0)
    os.umask(now)
    return now


def test_an_output_may_be_a_link_a_device_or_standard_output(
    checkout: Checkout, tmp_path: Path
) -> None:
    checkout.build()
    (tmp_path / "real").mkdir()
    (tmp_path / "link").symlink_to("real/x.fpx")
    assert checkout.run("asm", "x.s", "-o", "link").returncode == 0
    assert (tmp_path / "real/x.fpx").read_text() == "2:asm x.s\n"
    assert (tmp_path / "link").is_symlink()
    assert checkout.run("asm", "-o", "-", "x.s").stdout == "2:asm x.s\n"
    assert checkout.run("asm", "x.s", "-o", "/dev/null").returncode == 0


def test_an_output_that_is_a_pipe_gets_only_answers(checkout: Checkout, tmp_path: Path) -> None:
    checkout.build()
    pipe = tmp_path / "pipe"
    os.mkfifo(pipe)
    for seen, shown, told in (("", "2:asm x.s\n", ""), ("5", "", "refused it\n")):
        with read(pipe) as reader:
            ran = checkout.run("--quiet", "asm", "x.s", "-o", "pipe", SEEN=seen, LINE="refused it")
            assert (ran.returncode, ran.stdout, ran.stderr) == (int(seen or 0), "", told)
            assert reader.communicate()[0] == shown
    ran = checkout.run("--quiet", "asm", "x.s", "-o", "-", SEEN="5", LINE="refused it")
    assert (ran.returncode, ran.stdout, ran.stderr) == (5, "", "refused it\n")
    assert list(tmp_path.glob("pipe*")) == [pipe]


def read(pipe: Path) -> subprocess.Popen[str]:
    """A reader of a pipe. It ends by itself if no writer opens the pipe."""
    return subprocess.Popen(["timeout", "20", "cat", pipe], stdout=subprocess.PIPE, text=True)


def test_a_pipe_that_is_opened_after_a_refusal_ends(checkout: Checkout, tmp_path: Path) -> None:
    checkout.build()
    os.mkfifo(tmp_path / "pipe")
    words = ["timeout", "20", str(tmp_path / "flexpret"), "--quiet", "asm", "x.s", "-o", "pipe"]
    named = {**checkout.environment, "SEEN": "5", "LINE": "refused it"}
    with subprocess.Popen(
        words, cwd=tmp_path, env=named, stdin=subprocess.DEVNULL, stderr=subprocess.PIPE, text=True
    ) as script:
        assert script.stderr
        assert script.stderr.readline() == "refused it\n"
        time.sleep(0.2)
        with read(tmp_path / "pipe") as reader:
            assert (reader.communicate()[0], reader.returncode) == ("", 0)
        assert script.wait() == 5


def test_a_listing_is_compared_with_the_image_wherever_that_is_written(
    checkout: Checkout, tmp_path: Path
) -> None:
    image = "FPX1\0\0\0\0"
    (tmp_path / "image").write_text(image)
    program = tmp_path / "program"
    program.write_text(f"#!/bin/sh\nexec cat {tmp_path}/image\n")
    program.chmod(0o755)
    (tmp_path / "x.s").write_text("a:\n")
    (tmp_path / "model").symlink_to(TOP / "model")
    os.mkfifo(tmp_path / "pipe")

    def call(name: str) -> str:
        """Standard output of a call that also writes a listing and a map."""
        words = f"asm x.s -o {name} --listing l --map m".split()
        ran = checkout.run("--quiet", "--use", str(program), *words)
        assert (ran.returncode, ran.stderr) == (0, "")
        assert "a:" in (tmp_path / "l").read_text()
        assert (tmp_path / "m").read_text().endswith("\n00000000 1 a\n")
        (tmp_path / "l").unlink()
        (tmp_path / "m").unlink()
        return ran.stdout

    with read(tmp_path / "pipe") as reader:
        assert call("pipe") == ""
        assert reader.communicate()[0] == image
    written = [call(it) for it in ("-", "/dev/stdout", "/dev/null", "x.fpx", "-x.fpx")]
    assert written == [image, image, "", "", ""]
    assert ((tmp_path / "x.fpx").read_text(), (tmp_path / "-x.fpx").read_text()) == (image, image)


@pytest.mark.parametrize("name", ["-", "/dev/stdout"])
def test_an_output_that_is_standard_output_keeps_what_is_there(
    checkout: Checkout, tmp_path: Path, name: str
) -> None:
    checkout.build()
    (tmp_path / "-").mkdir()
    call = f"{{ echo before; ./flexpret asm x.s -o {name}; echo $?; }} >both"
    subprocess.run(
        ["bash", "-c", call],
        cwd=tmp_path,
        env=checkout.environment,
        stdin=subprocess.DEVNULL,
        check=False,
    )
    assert (tmp_path / "both").read_text() == "before\n2:asm x.s\n0\n"


@pytest.mark.parametrize("before", ["", "trap '' PIPE; "])
def test_a_reader_of_an_output_that_stops_ends_it_without_a_word(
    checkout: Checkout, before: str
) -> None:
    checkout.build()
    call = f"{before}{{ sleep 0.2; ./flexpret asm x.s -o -; }} | true; echo ${{PIPESTATUS[0]}}"
    ran = subprocess.run(
        ["bash", "-c", call], cwd=checkout.folder, env=checkout.environment, stdin=subprocess.DEVNULL, capture_output=True, text=True,
        check=False,
    )  # fmt: skip
    assert (ran.stdout, ran.stderr) == ("8\n", "")


@pytest.mark.parametrize(
    ("name", "why"),
    [
        ("tools", "it is a folder"),
        ("/dev/full", "it can't be written"),
        ("nosuch/x", "no file can be made in nosuch: No such file or directory"),
    ],
)
def test_an_output_that_cannot_be_written(checkout: Checkout, name: str, why: str) -> None:
    checkout.build()
    ran = checkout.run("asm", "x.s", "-o", name)
    assert (ran.returncode, ran.stdout, ran.stderr) == (
        NOT_BUILT,
        "",
        f"flexpret: -o {name}: {why}\n",
    )


def test_the_files_follow_a_read_that_failed(
    checkout: Checkout, tmp_path_factory: pytest.TempPathFactory
) -> None:
    checkout.build()
    folder = tmp_path_factory.mktemp("call")
    (folder / "own").mkdir()
    (folder / "own/a.toml").write_text('image = "a.fpx"\n')
    (folder / "own/a.fpx").write_text("")

    def told(*words: str) -> list[str]:
        ran = checkout.run(*words, cwd=folder, SEEN="7", COMPLAINT="flexpret: read failed")
        assert (ran.returncode, ran.stdout) == (7, "")
        first, *rest = ran.stderr.splitlines()
        assert first == "flexpret: read failed"
        return [
            line.removeprefix("flexpret: ").replace(f" (looked for from {folder})", "")
            for line in rest
        ]

    assert told("asm", "x.s") == ["x.s: the source isn't there"]
    assert told("asm", "no/x y.s") == ["no/x y.s: the source isn't there: there is no folder no"]
    assert told("elf", "own") == ["own: the file is a folder"]
    assert told("run", "own/a.toml", "--thread", "0", "--cycles", "9") == [
        "a.fpx: the image of own/a.toml isn't there",
        "own/a.fpx is there: a setup names its image as it is seen from the folder of the call",
    ]
    words = ("check", "--trace", "t", "own/a.toml", "--thread=0", "--cycles=9")
    assert told(*words)[0] == "t: the file of --trace isn't there"
    words = ("calls", "own/a.toml", "--thread=0", "--from=0", "--to=4", "--routines=r")
    assert told(*words)[0] == "r: the file of --routines isn't there"


def test_the_files_follow_a_view_that_could_not_read(tmp_path: Path) -> None:
    checkout = Checkout(tmp_path, "flexpret-view", "flexpret_view")
    checkout.build()
    folder = tmp_path / "call"
    (folder / "own").mkdir(parents=True)
    (folder / "own/a.toml").write_text('image = "a.fpx"\n')
    (folder / "own/a.fpx").write_text("")
    words = ("turns", "--from", "0", "own/a.toml", "--to=9", "--svg", "a.svg")
    ran = checkout.run(*words, cwd=folder, SEEN="7", COMPLAINT="flexpret_view: read failed")
    assert (ran.returncode, ran.stdout) == (7, "")
    assert ran.stderr.splitlines() == [
        "flexpret_view: read failed",
        f"flexpret-view: a.fpx: the image of own/a.toml isn't there (looked for from {folder})",
        "flexpret-view: own/a.fpx is there: a setup names its image as it is seen from the folder of the call",
    ]
