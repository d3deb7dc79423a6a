"""What fp_lint says of setups, with the line and the key."""
from __future__ import annotations

import subprocess
from pathlib import Path

import pytest
from fptools.testing.common import TOP, Tool

TOO_MANY = (
    "warning: loop[0].bound: the code counts 8 rounds, which is bound = 7; 8 is more than that"
)
SUM = (TOP / "examples/sum.toml").read_text()
QUIET = "examples/loop/quiet.toml"
"""The closed loop without the other threads."""
EXAMPLES = sorted(
    str(it.relative_to(TOP)) for it in TOP.glob("examples/**/*.toml") if it.name != "budgets.toml"
)
EXAMPLES.remove(QUIET)
UNBUILT = "examples/current/current.toml"
"""The setup of the case study, whose image the page makes, as that of C does."""
EXAMPLES = [it for it in EXAMPLES if it not in (UNBUILT, "examples/own/own.toml")]


def said(tool: Tool, folder: Path, text: str, *options: str) -> tuple[int, list[str]]:
    """The status, and each line from the setup's line number on."""
    setup = folder / "setup.toml"
    setup.write_text(text)
    ran = tool("fp_lint", setup, *options)
    return ran.returncode, [line.removeprefix(f"{setup}:") for line in ran.stdout.splitlines()]


def changed(*changes: tuple[str, str]) -> str:
    """The setup of examples/sum.toml, changed."""
    text = SUM
    for old, new in changes:
        assert text.count(old) == 1, old
        text = text.replace(old, new)
    return text


def test_a_setup_whose_image_is_made_later(tool: Tool) -> None:
    ran = tool("fp_lint", UNBUILT)
    text = (
        "4: warning: image: current/current.fpx can't be read from here: No such file or directory"
    )
    assert (ran.returncode, ran.stdout, ran.stderr) == (1, f"{UNBUILT}:{text}\n", "")


@pytest.mark.parametrize("setup", EXAMPLES)
def test_the_examples_are_fine(tool: Tool, setup: str) -> None:
    ran = tool("fp_lint", setup)
    assert (ran.returncode, ran.stdout, ran.stderr) == (0, "", "")


def test_the_loop_without_noise_has_an_empty_slot(tool: Tool) -> None:
    ran = tool("fp_lint", QUIET)
    text = "9: warning: slots[2]: T1 has no table, so it sleeps, and soft threads have its turns"
    assert (ran.returncode, ran.stdout, ran.stderr) == (1, f"{QUIET}:{text}\n", "")


@pytest.mark.parametrize(
    ("old", "new", "finding"),
    [
        ("period = 10 ", "period = 10.0 ", "9: error: period: 10.0 is not of type 'integer'"),
        ("period = 10 ", "periode = 10 ", "1: error: period: 'period' is a required property"),
        ("period = 10 ", "periode = 10 ", "1: error: top: 'periode' is no key of this table: is 'period' meant?"),
        ("confined = true", "confind = true", "20: error: thread[0]: 'confind' is no key of this table: is 'confined' meant?"),
        ("confined = true", "version = 2", "20: error: thread[0]: 'version' is no key of this table: it belongs to the top: write it above the first table"),
        ("confined = true", "colour = 1", "20: error: thread[0]: 'colour' is no key of this table: the keys are id, mode, entry, confined, permit, unplug, inputs"),
        ('"S", "S", "S"', '"S", "S", "X"', "13: error: slots[3]: 'X' is not one of ['T0', 'T1', 'T2', 'T3', 'T4', 'T5', 'T6', 'T7', 'S', 'D']"),
        ("id = 0", "id = 8", "21: error: thread[0].id: 8 is greater than the maximum of 7"),
        ("confined = true", "confined = true\npermit = true", "25: error: thread[0].permit: not beside confined = true"),
        ("inputs = [[0, 3]]", "inputs = [[0, 3],\n  [0, 4]]", "25: error: thread[0].inputs[1]: cycle 0 isn't above 0"),
        ("last = 0x34", "last = 0x20", "31: error: loop[0].last: is below head"),
        ("head = 0x24", "head = 0x4024", "30: error: loop[0].head: is past the scratchpad of 16384 bytes"),
        ("[[loop]]", "[[thread]]\nid = 0\nmode = 'soft'\nentry = 0\n[[loop]]", "30: error: thread[1].id: an earlier table is of thread 0 too"),
    ],
)  # fmt: skip
def test_refused_setups(tool: Tool, tmp_path: Path, old: str, new: str, finding: str) -> None:
    status, lines = said(tool, tmp_path, changed((old, new)))
    assert status == 1
    assert finding in lines


@pytest.mark.parametrize(
    ("old", "new", "finding"),
    [
        ('slots = ["T0"', 'slots = ["S"', "22: warning: thread[0].mode: T0 is hard, and no slot is its own: it doesn't run"),
        ('"S", "S", "S"', '"S", "S", "T5"', "13: warning: slots[3]: T5 has no table, so it sleeps, and soft threads have its turns"),
        ("entry = 0", "entry = 0x200", "23: warning: thread[0].entry: nothing of the image is at 0x200: the thread traps at once, to address 0"),
        ("head = 0x24", "head = 0x28", "30: warning: loop[0].head: no branch or jump from 0x28 to 0x34 goes back to 0x28: has the code moved?"),
        ("bound = 7", "bound = 8", "32: warning: loop[0].bound: the code counts 8 rounds, which is bound = 7; 8 is more than that"),
        ("bound = 7", "bound = 0", "32: warning: loop[0].bound: the code counts 8 rounds, which is bound = 7; 0 is too few"),
        ('mode = "hard"', 'mode = "hard-asleep"', "22: warning: thread[0].mode: starts asleep, and no thread has a permit to wake it"),
        ("[[0, 3]]", "[[0, 3]]\nunplug = 0", "25: warning: thread[0].inputs[0]: the port is unplugged by then"),
        ('i_regions = ["readonly"', 'i_regions = ["T1"', "23: warning: thread[0].entry: T0 is confined, and its entry is in a region of T1: each fetch traps"),
        ("examples/sum.fpx", "sum.fpx", "10: warning: image: sum.fpx can't be read from here: No such file or directory"),
        ("examples/sum.fpx", "examples/sum.s", "10: error: image: examples/sum.s is no image: it begins with b'# T0: each 2,000 nanoseconds, keep the w'"),
        ("examples/sum.fpx", "examples/big.fpx", "10: error: image: places words past 16384 bytes: write version = 2"),
    ],
)  # fmt: skip
def test_what_is_seldom_meant(tool: Tool, tmp_path: Path, old: str, new: str, finding: str) -> None:
    status, lines = said(
        tool,
        tmp_path,
        changed(
            (f'{old}"' if old.endswith("fpx") else old, f'{new}"' if old.endswith("fpx") else new)
        ),
    )
    assert status == 1
    assert lines == [finding]


def image_of(*numbers: int, after: bytes = b"") -> bytes:
    return b"FPX1" + b"".join(number.to_bytes(4, "little") for number in numbers) + after


@pytest.mark.parametrize(
    ("data", "fault"),
    [
        (b"FPX1", "it was cut"),
        (image_of(1, 0, 8, 0x13), "it was cut"),
        (image_of(17), "17 segments, of 16 at most"),
        (image_of(1, 2, 4, 0x13), "a segment of 4 bytes at 0x2"),
        (image_of(1, 0, 0), "a segment of 0 bytes at 0x0"),
        (image_of(1, 0x4000_0000, 4, 0x13), "a segment of 4 bytes at 0x40000000"),
        (image_of(1, 0xFFFC, 8, 0x13, 0x13), "a segment of 8 bytes at 0xfffc"),
        (
            image_of(2, 0, 8, 0x13, 0x13, 4, 4, 0x13),
            "the segment at 0x4 isn't behind the one before",
        ),
        (image_of(1, 0, 4, 0x13, after=b"\n"), "bytes follow its last segment"),
    ],
)
def test_images_that_the_program_refuses(
    tool: Tool, flexpret: str, tmp_path: Path, data: bytes, fault: str
) -> None:
    image = tmp_path / "own.fpx"
    image.write_bytes(data)
    text = changed(('"examples/sum.fpx"', f"{str(image)!r}"))
    assert said(tool, tmp_path, text) == (1, [f"10: error: image: {image} is no image: {fault}"])
    dump = [flexpret, "dump", str(tmp_path / "setup.toml"), "--cycles", "1"]
    assert subprocess.run(dump, capture_output=True, check=False).returncode == 4


def test_an_image_beside_the_setup_is_named(tool: Tool, tmp_path: Path) -> None:
    (tmp_path / "own.fpx").write_bytes((TOP / "examples/sum.fpx").read_bytes())
    _, lines = said(tool, tmp_path, changed(('examples/sum.fpx"', 'own.fpx"')))
    assert lines[0].endswith(
        f"; {tmp_path}/own.fpx is there: names are relative to the folder of the call"
    )


def test_an_expiry_without_a_handler(tool: Tool, tmp_path: Path) -> None:
    image = tmp_path / "expiry.fpx"
    words = b"\x0b\xc0\xa5\x00" + b"\x6f\x00\x00\x00"  # ee x11, x10; j .
    image.write_bytes(
        b"FPX1" + b"".join(it.to_bytes(4, "little") for it in (1, 0, len(words))) + words
    )
    text = SUM[: SUM.index("[[loop]]")].replace("examples/sum.fpx", str(image))
    _, lines = said(tool, tmp_path, text)
    assert lines == [
        "23: warning: thread[0].entry: the word at 0x0 is there to trap, and nothing sets mtvec, which is 0: a trap goes to address 0"
    ]


def test_notes_are_shown_on_request(tool: Tool, tmp_path: Path) -> None:
    status, lines = said(tool, tmp_path, SUM, "--notes")
    assert status == 0
    assert (
        "23: note: thread[0].entry: nothing sets mtvec, which is 0: a trap goes to address 0"
        in lines
    )


def test_what_is_no_toml(tool: Tool, tmp_path: Path) -> None:
    status, lines = said(tool, tmp_path, "period = = 10\n")
    assert status == 1
    assert lines == ["1: error: -: Invalid value (at line 1, column 10)"]


def test_a_setup_that_is_not_there(tool: Tool, tmp_path: Path) -> None:
    assert tool("fp_lint", tmp_path / "none.toml").returncode == 2


def test_the_other_setups_are_looked_at_where_one_is_not_there(tool: Tool, tmp_path: Path) -> None:
    (tmp_path / "empty.toml").write_text("")
    ran = tool("fp_lint", tmp_path / "none.toml", tmp_path / "empty.toml")
    assert (ran.returncode, ran.stdout.count("is a required property")) == (2, 5)


@pytest.mark.parametrize(
    ("old", "new", "finding"),
    [
        ("bound = 7", "bound = = 7", "32: error: -: Invalid value (at line 32, column 9)"),
        ("bound = 7", "bound = [7", "32: error: -: Unclosed array (at end of document)"),
        ("bound = 7", "bound = \udce9", "32: error: -: isn't UTF-8: invalid continuation byte"),
        ("period = 10 ", f"period = {'9' * 5000} ", "1: error: -: a number has too many digits"),
        ("bound = 7", f"bound = {'[' * 5000}", "1: error: -: its lists or tables nest too deep"),
        ("bound = 7", f"bound = 7 # {'-' * 262_144}", "1: error: -: has 263474 bytes, of 262144 at most"),
        ('"examples/sum.fpx"', '"x,#y"', "10: warning: image: x,#y can't be read from here: No such file or directory"),
        ('"examples/sum.fpx"', '"x\\u0000y"', "10: warning: image: can't be read: embedded null byte"),
        ("[[thread]]", "[thread]", "20: error: thread: "),
    ],
    ids=("value", "end", "bytes", "digits", "nest", "long", "comma", "zero", "table"),
)  # fmt: skip
def test_lines_of_setups_of_any_bytes(
    tool: Tool, tmp_path: Path, old: str, new: str, finding: str
) -> None:
    setup = tmp_path / "setup.toml"
    setup.write_bytes(changed((old, new)).encode("utf-8", "surrogateescape"))
    ran = tool("fp_lint", setup)
    assert (ran.returncode, ran.stderr) == (1, "")
    assert any(
        line.startswith(f"{setup}:{finding}") for line in ran.stdout.splitlines()
    ), ran.stdout


def test_lines_go_on_behind_unicodes_separators_and_commas_in_texts(
    tool: Tool, tmp_path: Path
) -> None:
    head = "# \u2028 \u0085 \u2029\nimage = 'x,#y'\n"
    setup = tmp_path / "setup.toml"
    setup.write_text(
        head + changed(('image = "examples/sum.fpx"', ""), ("bound = 7", "bound = -1"))
    )
    ran = tool("fp_lint", setup)
    assert ran.stdout == f"{setup}:34: error: loop[0].bound: -1 is less than the minimum of 0\n"


def test_a_byte_order_mark_and_returns_are_passed_over(tool: Tool, tmp_path: Path) -> None:
    setup = tmp_path / "setup.toml"
    setup.write_bytes(
        b"\xef\xbb\xbf" + changed(("bound = 7", "bound = 8")).replace("\n", "\r\n").encode()
    )
    assert tool("fp_lint", setup).stdout == f"{setup}:32: {TOO_MANY}\n"
