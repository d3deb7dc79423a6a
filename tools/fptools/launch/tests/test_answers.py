"""What ./flexpret adds to answers: warnings, explanations, and answers without a proof."""
from __future__ import annotations

import random
import re
import shlex
import shutil
import subprocess
import sys
from pathlib import Path

import pytest
from fptools.testing.common import TOOLS, TOP
from fptools.files.image import read_image
from fptools.isa.encodings import edges, is_call
from fptools.launch.bounds import ways_out
from fptools.launch.plain_section import stays
from fptools.program.status import NOT_BUILT
from fptools.isa.words import Flow, Word
from fptools.view.rows import HEAD
from fptools.launch.tests.scripts import Checkout, RT, SELFRUN, TURNS, elf

pytest_plugins = ["fptools.launch.tests.fixtures"]


def bound(checkout: Checkout, number: int, start: str, end: str, *more: str) -> list[str]:
    checkout.build()
    words = ("bound", "--thread", "0", "--from", start, "--to", end, "examples/calls.toml", *more)
    ran = checkout.run(*words, cwd=TOP, SEEN="0", LINE=f"bound {number}")
    assert (ran.returncode, ran.stdout) == (0, f"bound {number}\n")
    return ran.stderr.splitlines()


def test_a_bound_that_ends_at_a_call_is_warned_of(checkout: Checkout) -> None:
    assert bound(checkout, 4, "0x8", "0x18") == [
        "flexpret: warning: 00000008: a call of 00000100 leaves the section, and the bound ends there;"
        " calls and tools/fp_budget follow it"
    ]
    assert bound(checkout, 4, "0x8", "0x18", "--quiet") == []


def test_a_bound_of_no_code_is_warned_of(checkout: Checkout) -> None:
    first, second = bound(checkout, 0, "0x800", "0x818")
    assert first == "flexpret: warning: 00000800: no instruction is there, and the bound ends there"
    assert second.startswith(
        "flexpret: warning: the bound is 0: no path from 00000800 leaves the section after a cycle"
    )


def test_a_bound_that_ends_at_the_sections_end_is_not_warned_of(checkout: Checkout) -> None:
    checkout.build()
    words = ("bound", "examples/sum.toml", "--thread", "0", "--from", "0x10", "--to", "0x3c")
    assert checkout.run(*words, cwd=TOP, SEEN="0", LINE="bound 184").stderr == ""


def put_tool(checkout: Checkout, name: str, text: str) -> None:
    tool = checkout.folder / "tools" / name
    tool.write_text(f"import os, sys\nasked = ' '.join(sys.argv[1:])\n{text}\n")
    tool.chmod(0o755)


def test_an_image_is_shown_as_a_source_by_its_tool(checkout: Checkout) -> None:
    put_tool(checkout, "fp_disasm", "print(asked); sys.exit(2)")
    ran = checkout.run("disasm", "x.fpx", "--map", "m")
    assert (ran.returncode, ran.stdout) == (2, "x.fpx --map m\n")
    (checkout.folder / "tools/fp_disasm").unlink()
    assert checkout.run("disasm", "x.fpx").stderr == "flexpret: tools/fp_disasm isn't there\n"


def test_a_window_is_shown_with_more_by_its_tool(tmp_path: Path) -> None:
    checkout = Checkout(tmp_path, "flexpret-view", "flexpret_view")
    put_tool(checkout, "fp_view", "print(os.environ['FLEXPRET_VIEW'], asked); sys.exit(1)")
    script = str(checkout.folder / "flexpret-view")
    ran = checkout.run("--quiet", "show", "x.toml", "--around", "trap", FLEXPRET_VIEW="")
    assert (ran.returncode, ran.stdout, ran.stderr) == (1, f"{script} x.toml --around trap\n", "")
    other = elf(tmp_path / "other")
    ran = checkout.run("--quiet", "--use", other, "show", "x.toml")
    assert (ran.returncode, ran.stdout) == (1, f"{other} x.toml\n")
    ran = checkout.run("--unproved", "show", "x.toml")
    text = "flexpret-view: --unproved is for turns only: show needs the built program\n"
    assert (ran.returncode, ran.stdout, ran.stderr) == (2, "", text)


def test_a_listing_is_made_of_an_image_that_is_there(checkout: Checkout) -> None:
    checkout.build()
    put_tool(checkout, "fp_asm", "print(asked, file=open('tool', 'w'))")
    ran = checkout.run("asm", "x.s", "-o", "x.fpx", "--listing", "l", "--map=m")
    assert (ran.returncode, ran.stdout, ran.stderr) == (0, "", "")
    assert (checkout.folder / "tool").read_text() == "x.s x.fpx --listing l --map m\n"
    assert checkout.run("asm", "x.s", "--map", "m").returncode == 2
    put_tool(checkout, "fp_asm", "sys.exit(1)")
    assert checkout.run("asm", "x.s", "-o", "x.fpx", "--map=m").returncode == NOT_BUILT


def test_names_are_replaced_by_addresses(checkout: Checkout) -> None:
    checkout.build()
    put_tool(
        checkout,
        "fp_addresses",
        "print(asked, file=open('tool', 'w')); print('0x00000010'); print('0x0000003c')",
    )
    ran = checkout.run(
        "bound", "x.toml", "--thread", "0", "--from", "loop", "--to=loop+4", "--map", "m"
    )
    assert ran.stdout == "8:bound x.toml --thread 0 --from 0x00000010 --to 0x0000003c\n"
    assert (checkout.folder / "tool").read_text() == "--map m --setup x.toml loop loop+4\n"
    ran = checkout.run(
        "calls", "x.toml", "--thread", "0", "--from", "f", "--to", "g", "--elf", "x.elf"
    )
    routines = ran.stdout.split()[5]
    assert not Path(routines).exists()
    assert (
        checkout.folder / "tool"
    ).read_text() == f"--elf x.elf --setup x.toml --routines {routines} f g\n"
    put_tool(checkout, "fp_addresses", "sys.stderr.write('fp_addresses: no f\\n'); sys.exit(2)")
    ran = checkout.run(
        "bound", "x.toml", "--thread", "0", "--from", "f", "--to", "g", "--elf", "x.elf"
    )
    assert (ran.returncode, ran.stderr) == (NOT_BUILT, "fp_addresses: no f\n")


def test_a_refusal_is_explained_by_its_tool(checkout: Checkout) -> None:
    checkout.build()
    (checkout.folder / "x.s").write_text("")
    (checkout.folder / "x.toml").write_text("")
    put_tool(checkout, "fp_refusal", "print('why:', asked)")

    def told(status: str, *words: str) -> str:
        ran = checkout.run(*words, SEEN=status, LINE="refused it")
        assert (ran.returncode, ran.stdout) == (int(status), "refused it\n")
        return ran.stderr

    assert told("5", "asm", "x.s") == "why: --file x.s -- refused it\n"
    words = ("--thread", "0", "--from", "0", "--to", "4", "--routines", "r")
    assert told("10", "calls", *words, "x.toml") == "why: --setup x.toml --file r -- refused it\n"
    assert told("3", "dump", "x.toml", "--cycles", "1") == "why: --setup x.toml -- refused it\n"
    assert told("3", "--quiet", "dump", "x.toml", "--cycles", "1") == ""
    put_tool(checkout, "fp_refusal", "sys.stderr.write('no such line'); sys.exit(2)")
    assert told("5", "asm", "x.s") == ""
    put_tool(checkout, "fp_refusal", "sys.stderr.write('no package'); sys.exit(125)")
    assert told("5", "asm", "x.s") == "no package\n"


def without_packages(checkout: Checkout) -> None:
    """Gives a checkout a Python of the standard library alone, and what fp_refusal and fp_disasm read."""
    shutil.copy(TOOLS / "fp_refusal", checkout.folder / "tools")
    shutil.copytree(
        TOP / "model",
        checkout.folder / "model",
        ignore=shutil.ignore_patterns("tests", "__pycache__"),
    )
    (checkout.folder / "examples").symlink_to(TOP / "examples")
    bare = checkout.folder / "bin/python3"
    bare.write_text(f'#!/bin/sh\nexec {shlex.quote(sys.executable)} -S "$@"\n')
    bare.chmod(0o755)
    shared = checkout.folder / "tools/launch.bash"
    shared.write_text(shared.read_text().replace("/usr/bin/python3", str(bare)))


def test_a_refusal_is_explained_by_a_python_without_packages(checkout: Checkout) -> None:
    checkout.build()
    without_packages(checkout)
    (checkout.folder / "x.s").write_text(" adi x1, x1, 1\n")

    def told(line: str, *words: str) -> str:
        ran = checkout.run(
            *words, SEEN={"source": "5", "bound": "6"}.get(line.split()[1], "3"), LINE=line
        )
        assert ran.stdout == f"{line}\n"
        return ran.stderr

    assert told("refused source 1 3 UnknownName", "asm", "x.s").startswith(
        "x.s:1:2: error: unknown mnemonic 'adi'\n"
    )
    words = ("bound", "examples/sum.toml", "--thread=0", "--from=0", "--to=4")
    assert told("refused bound 3 TimedWait 00000040", *words).startswith(
        "error: TimedWait at 0x40: wu x11, x10\n"
    )
    dump = ("dump", "examples/sum.toml", "--cycles", "1")
    assert told("refused setup 7 BadSlot slots[3]", *dump) == (
        "examples/sum.toml:13: error: slots[3]: a slot is one of T0 to T7, S and D\n"
    )
    assert told("refused setup 3 UnknownKey top", *dump).startswith(
        "examples/sum.toml:1: error: this table has an unknown key: "
    )


def test_a_missing_package_is_one_line_and_a_status_of_its_own(checkout: Checkout) -> None:
    checkout.build()
    without_packages(checkout)
    assert checkout.run("disasm", "examples/sum.fpx").returncode == 0
    bound = ("bound", "examples/c/pid.toml", "--thread=0", "--from=main", "--to=main+4")
    (checkout.folder / "m").write_text("# map of x.s: address, line, labels\n00000010 1 main\n")
    ran = checkout.run("--quiet", *bound, "--map", "m")
    assert (ran.returncode, ran.stderr) == (0, "")
    assert ran.stdout.endswith(" --from 0x00000010 --to 0x00000014\n")
    for words in (("disasm", "examples/sum.fpx"), bound):
        ran = checkout.run(*words, "--elf", "examples/c/pid.elf")
        assert (ran.returncode, ran.stdout, len(ran.stderr.splitlines())) == (NOT_BUILT, "", 1)
        assert re.match(r"fp_\w+: \S+ \(Python 3\.\d+\.\d+\) lacks pyelftools, ", ran.stderr)
        assert ran.stderr.endswith("apt-get install python3-pyelftools python3-jsonschema\n")


BY_MODEL = "flexpret: nothing of this answer is proved: the model in Python gives it\n"
ASKED = ("run", "examples/drive.toml", "--thread", "0", "--cycles", "9")


@pytest.mark.parametrize(
    ("old", "new", "words", "why"),
    [
        ("id = 0", "id = 0", ("5", "99"), "T5 issues nothing in the first 99 cycles: no [[thread]] of it.toml has id = 5, so it sleeps"),
        ('slots = ["T0"', 'slots = ["S"', ("0", "5000"), 'T0 issues nothing in the first 5000 cycles: it is hard, and no slot is "T0"'),
        ("id = 0", "id = 0", ("0", "1"), "T0 issues nothing in the first 1 cycle: its first turn comes later"),
        ('mode = "hard"', 'mode = "hard-asleep"', ("0", "0099"), "T0 issues nothing in the first 99 cycles: it starts asleep"),
        ("id = 0", "id = 0", ("0", "99"), ""),
    ],
)  # fmt: skip
def test_a_run_without_an_event_says_why(
    checkout: Checkout, old: str, new: str, words: tuple[str, str], why: str
) -> None:
    without_packages(checkout)
    (checkout.folder / "it.toml").write_text(
        (TOP / "examples/sum.toml").read_text().replace(old, new)
    )
    ran = checkout.run("--model", "run", "it.toml", "--thread", words[0], f"--cycles={words[1]}")
    assert (ran.returncode, ran.stdout == "") == (0, bool(why)), ran.stderr
    assert ran.stderr == BY_MODEL + (f"flexpret: {why}\n" if why else "")
    assert (
        checkout.run(
            "--quiet", "--model", "run", "it.toml", "--thread", "5", "--cycles", "9"
        ).stderr
        == ""
    )


def test_an_answer_by_the_model(checkout: Checkout) -> None:
    """It needs no kit, no build and no packages."""
    without_packages(checkout)
    (checkout.folder / "bin/rt").unlink()
    model = str(checkout.folder / "tools/fp_model")
    calls = ((("--model", *ASKED), ""), (ASKED, model), (("--use", model, *ASKED), ""))
    for words, named in calls:
        ran = checkout.run(*words, FLEXPRET=named)
        assert (ran.returncode, ran.stderr) == (0, BY_MODEL), words
        assert ran.stdout.startswith("         0 00000000 ") and not checkout.log.exists()
    assert checkout.run("--quiet", "--model", *ASKED).stderr == ""
    ran = checkout.run("--model", "run", "examples/none.toml", "--thread", "0", "--cycles", "9")
    assert ran.returncode == 7 and ran.stderr.startswith(
        f"{BY_MODEL}flexpret: read failed\nflexpret: examples/none.toml: "
    )
    ran = checkout.run("--model", "run", "--thread", "9")
    assert (
        ran.returncode == 2
        and ran.stderr.splitlines()[1] == "flexpret: --thread 9: threads are 0 to 7"
    )
    assert (
        checkout.run("--model", "--version").stdout
        == "flexpret: the model in Python: nothing of its answers is proved\n"
    )


def test_the_model_stands_by_itself(
    checkout: Checkout, tmp_path_factory: pytest.TempPathFactory
) -> None:
    ran = checkout.run("--model", "--unproved", *ASKED)
    said = "flexpret: --model is given with another way to the answer: --use or --unproved\n"
    assert (ran.returncode, ran.stdout, ran.stderr) == (2, "", said)
    view = Checkout(tmp_path_factory.mktemp("view"), "flexpret-view", "flexpret_view")
    ran = view.run("--model", *TURNS)
    assert (ran.returncode, ran.stderr) == (
        2,
        "flexpret-view: --model is for ./flexpret: the view has no model\n",
    )


def test_tools_ask_the_model(checkout: Checkout) -> None:
    checkout.folder.joinpath("examples").symlink_to(TOP / "examples")
    shutil.copytree(
        TOP / "model",
        checkout.folder / "model",
        ignore=shutil.ignore_patterns("tests", "__pycache__"),
    )
    words = (
        "fp_budget",
        "examples/c/pid.toml",
        "examples/c/budgets.toml",
        "--elf",
        "examples/c/pid.elf",
    )
    for more, named in (((), "tools/fp_model"), (("--flexpret", "tools/fp_model"), "")):
        ran = subprocess.run(
            [sys.executable, f"tools/{words[0]}", *words[1:], *more], cwd=checkout.folder,
            env={**checkout.environment, "FLEXPRET": named}, capture_output=True, text=True, check=False,
        )  # fmt: skip
        assert (
            ran.stdout.startswith("holds    T0 a step of the controller: 352 of 400 cycles")
            and BY_MODEL in ran.stderr
        )


def test_an_answer_without_a_proof(
    checkout: Checkout, tmp_path_factory: pytest.TempPathFactory
) -> None:
    folder = tmp_path_factory.mktemp("a call")
    (folder / "a.toml").write_text('version = 1\nimage = "../elsewhere/x.fpx" # there\n')
    (folder.parent / "elsewhere").mkdir(exist_ok=True)
    (folder.parent / "elsewhere/x.fpx").write_text("FPX1")
    (folder / "said").write_text(
        "checked: ended status=7\nflexpret: read failed\nrun=ended status=7 runners=1 proved=no\n"
    )
    words = ("check", "a.toml", "--thread", "0", "--cycles=9", "--trace", "none")
    ran = checkout.run("--unproved", *words, cwd=folder, RT_TRY=str(folder / "said"), RT_STATUS="7")
    assert ran.returncode == 7
    assert ran.stderr.splitlines() == [
        "flexpret: nothing of this answer is proved; it takes about a minute",
        "flexpret: read failed",
        f"flexpret: none: the file of --trace isn't there (looked for from {folder})",
    ]
    asked = checkout.log.with_suffix(".try").read_text().splitlines()
    behind = asked.index("--")
    assert asked[behind + 1 :] == [
        "check",
        "file1",
        "--thread=0",
        "--cycles=9",
        "--trace=file2",
    ]
    assert [it.split("=")[0] for it in asked[:behind] if "=" in it] == ["file0", "file1"]
    assert not checkout.out.exists()


@pytest.mark.parametrize(
    "said", ["run=none\n", "run=ended status=3 runners=1\n", "stopped: 1048576 bytes\n", ""]
)
def test_no_answer_without_a_proof(checkout: Checkout, said: str) -> None:
    (checkout.folder / "said").write_text(said)
    ran = checkout.run("--unproved", *SELFRUN, RT_TRY=str(checkout.folder / "said"), RT_STATUS="6")
    assert ran.returncode == NOT_BUILT
    assert (
        "no answer: rt try gives up after 60 seconds or 1048576 bytes of output ("
        in ran.stderr.splitlines()[-1]
    )


def test_a_wrong_argument_without_a_proof(each_script: Checkout) -> None:
    assert each_script.run("--unproved", "x").returncode == 2
    assert not each_script.log.with_suffix(".try").exists()


def test_a_view_without_a_proof_goes_to_its_file(tmp_path: Path) -> None:
    checkout = Checkout(tmp_path, "flexpret-view", "flexpret_view")
    (tmp_path / "said").write_text("run=ended status=0 runners=1 proved=no\n")
    rt = tmp_path / "bin/rt"
    (tmp_path / "text").write_text(f"{HEAD}\t10\n{0:>10} {0:>13} S     .  .  .  .  .  -\n")
    rt.write_text(RT.replace('cat "$RT_TRY"', 'cat "${RT_TRY%/*}/text"; cat "$RT_TRY"'))
    words = ("turns", "x.toml", "--from", "0", "--to=1", "--konata", "x.log", "--progress", "all")
    ran = checkout.run("--unproved", *words, RT_TRY=str(tmp_path / "said"))
    assert (ran.returncode, ran.stdout) == (0, "")
    assert (tmp_path / "x.log").read_text() == "Kanata\t0004\nC=\t0\nC\t1\n"
    asked = checkout.log.with_suffix(".try").read_text().splitlines()
    assert asked[asked.index("--") + 1 :] == [
        "turns",
        "file0",
        "--from=0",
        "--to=1",
        "--state",
    ]


@pytest.mark.parametrize(
    ("setup", "start", "end", "status"),
    [
        ("sum", "0x10", "0x3c", 0),
        ("sum", "0x10", "0x30", 0),
        ("sum", "0x34", "0x3c", 1),
        ("sum", "0x10", "0x44", 1),
        ("calls", "0x8", "0x18", 1),
        ("sum", "0x800", "0x810", 1),
        ("sum", "0x10", "0x4000", 1),
        ("nosuch", "0x10", "0x3c", 1),
    ],
)
def test_a_plain_section_is_known_at_once(setup: str, start: str, end: str, status: int) -> None:
    words = [
        sys.executable,
        "-S",
        str(TOOLS / "fp_launch"),
        "flexpret",
        "flexpret_cli",
        "is-plain",
        f"examples/{setup}.toml",
        start,
        end,
    ]
    ran = subprocess.run(words, cwd=TOP, capture_output=True, text=True, check=False)
    assert (ran.returncode, ran.stdout, ran.stderr) == (status, "", "")


def drawn_words() -> list[int]:
    """The words of the examples and random ones, many of them with an opcode of the core."""
    chance = random.Random(1)
    words = [
        word for image in (TOP / "examples").glob("*.fpx") for word in read_image(image).values()
    ]
    words += [chance.getrandbits(32) for _ in range(5_000)]
    words += [chance.getrandbits(25) << 7 | opcode for opcode in OPCODES for _ in range(500)]
    return words + [
        funct << 12 | 0x0B | register << 15 for funct in range(8) for register in (0, 31)
    ]


def test_words_are_read_as_the_tools_read_them() -> None:
    for bits in drawn_words():
        word = Word(0x100, bits)
        assert is_call(bits) == (word.flow is Flow.CALL), hex(bits)
        wanted = [word.next] * (word.flow in (Flow.NEXT, Flow.BRANCH))
        wanted += [word.target or 0] * (word.flow in (Flow.BRANCH, Flow.JUMP, Flow.CALL))
        assert edges(0x100, bits) == wanted, hex(bits)


def test_what_is_plain_has_no_warning() -> None:
    plain = [word for word in drawn_words() if stays(0x100, word, 0xF0, 0x110)]
    assert len(plain) > 1000
    around = {at: 0x13 for at in range(0xF0, 0x110, 4)}
    for word in plain:
        assert not list(ways_out(around | {0x100: word}, 0xF0, 0x110)), hex(word)


def test_each_way_out_is_told() -> None:
    def told(word: int) -> list[str]:
        return list(ways_out({0x100: word, 0x104: 0x13}, 0x100, 0x108))

    assert told(0x00000073) == ["00000100: a trap leaves the section, and the bound ends there"]
    assert told(0x00000000) == ["00000100: no instruction is there, and the bound ends there"]
    assert told(0x1000006F) == [
        "00000100: the section is left for 00000200, and the bound ends there; tools/fp_budget checks that"
    ]
    assert told(0x10000063) == told(0x1000006F)
    assert told(0x0080006F) == told(0x00000013) == []


OPCODES = (0x03, 0x0B, 0x0F, 0x13, 0x17, 0x23, 0x33, 0x37, 0x63, 0x67, 0x6F, 0x73)


@pytest.mark.parametrize(
    ("complaint", "shown"),
    [("write failed", ""), ("read failed", "flexpret_view: read failed\r\n")],
)
def test_a_view_on_a_terminal_whose_reader_stops(
    tmp_path: Path, complaint: str, shown: str
) -> None:
    if not shutil.which("script"):
        pytest.skip("script isn't installed (Debian: bsdutils)")
    checkout = Checkout(tmp_path, "flexpret-view", "flexpret_view")
    checkout.build()
    call = f"{tmp_path}/flexpret-view {' '.join(TURNS)} | head -n 1; echo end"
    named = {**checkout.environment, "SEEN": "8", "COMPLAINT": f"flexpret_view: {complaint}"}
    ran = subprocess.run(
        ["script", "-qec", call, "/dev/null"],
        env=named,
        stdin=subprocess.DEVNULL,
        capture_output=True,
        check=False,
    )
    assert ran.stdout.decode() == f"{shown}end\r\n"
