"""The marks of fp_view, and the lines about wrong arguments."""
from __future__ import annotations

import re
from pathlib import Path
from xml.etree import ElementTree

import pytest
from fptools.testing.common import Tool
from fptools.files.elf import Program
from fptools.files.sources import Sources
from fptools.view.marks import Mark, mark_of, passages_of, periods_of
from fptools.view.names import Names
from fptools.view.picture import Picture, Shape
from fptools.view.rows import Row, State, Turn, turn_of
from dev.fuzz.view_forms import Dump
from fptools.view.tests.views import SPACE, refused, said

pytest_plugins = ["fptools.view.tests.fixtures"]


def row(cycle: int, text: str) -> Row:
    return Row(cycle, 10 * cycle, "S", turn_of(cycle, text), text, State(), 10)


def issue(pc: int, effect: str = "-", thread: int = 0) -> str:
    return f"T{thread} {pc:08x} 00000013 {'addi x0, x0, 0':<26} {effect}"


def test_sections_by_their_issues() -> None:
    texts = [
        issue(8),
        issue(4),
        issue(4, thread=1),
        issue(4),
        issue(8, "held"),
        issue(8),
        issue(8),
        "T0 flushed",
        issue(8, thread=1),
        issue(4),
        issue(4, "trap 24 -> 00000100", thread=2),
        "-",
    ]
    rows = [row(cycle, text) for cycle, text in enumerate(texts, 100)]
    found = passages_of([mark_of("4:8=6", Program())], rows)
    assert [(it.thread, it.begin, it.end, it.deadline) for it in found] == [
        (0, None, 100, None),
        (0, 101, 105, 107),
        (0, None, 106, None),
        (1, 102, 108, 108),
        (0, 109, None, 115),
    ]
    assert [it.cycles for it in found] == [None, 4, None, 6, None]


def test_marks_of_a_thread_are_drawn_beside_each_other() -> None:
    """Sections in each other, and an address, which have cycles in common."""
    rows = [row(cycle, issue(4 * cycle)) for cycle in range(8)]
    marks = [mark_of(text, Program()) for text in ("4:0x18=3", "8:0x10", "0x10")]
    picture = Picture(rows, 0, Shape([0, 1]), marks, Names(Program(), Sources(None)))
    drawn = ElementTree.fromstring(picture.text()).iter(f"{SPACE}rect")
    boxes = [it for it in drawn if it.get("class") in ("s", "m")]
    tops = [(float(it.attrib["y"]), float(it.attrib["height"])) for it in boxes]
    assert len(tops) == 3
    for (top, height), (after, _) in zip(sorted(tops), sorted(tops)[1:]):
        assert top + height <= after
    second = [
        it for it in ElementTree.fromstring(picture.text()).iter(f"{SPACE}text") if it.text == "T1"
    ]
    assert max(top + height for top, height in tops) <= float(second[0].attrib["y"])


def test_a_section_from_an_address_to_itself_is_a_period() -> None:
    rows = [row(cycle, issue(4)) for cycle in (3, 9, 20)]
    found = passages_of([Mark("4:4", 4, 4)], rows)
    assert [it.cycles for it in found] == [None, 6, 11, None]


def test_periods_from_their_start() -> None:
    assert periods_of([mark_of("every=100+30", Program())], 0, 231) == [(0, 30), (0, 130), (0, 230)]
    assert periods_of([mark_of("every=100", Program())], 101, 300) == [(0, 200)]
    assert periods_of([mark_of("every=7+50", Program())], 0, 50) == []


def test_turns_by_their_texts() -> None:
    turn = turn_of(5, issue(0x94, "trap 11 -> 00000100"))
    assert isinstance(turn, Turn) and (turn.event.cause, turn.text) == (11, "addi x0, x0, 0")
    assert turn_of(5, "-") is None


def test_marks_in_each_form(viewing: Tool) -> None:
    words = ("examples/drive.toml", "--from", "60", "--to", "120", "--threads", "0")
    marks = ("--mark", "0x10:0x34=20", "--mark", "0x2c", "--mark", "every=200+50")
    text = said(viewing, *words, *marks)
    notes = [
        (line[:10].strip(), found[0])
        for line in text.splitlines()
        if (found := re.search("(<<|>>|!!|--) .+", line))
    ]
    assert notes == [
        ("65", "-- every=200+50: 650 ns"),
        ("72", "<< begin T0 0x10:0x34=20"),
        ("85", "-- every=200+50: 850 ns"),
        ("92", "!! deadline T0 0x10:0x34=20"),
        ("100", "<< 0x2c"),
        ("105", "-- every=200+50: 1050 ns"),
        ("108", ">> end T0 0x10:0x34=20: 36 cycles, 16 late"),
    ]
    picture = ElementTree.fromstring(said(viewing, *words, *marks, "--svg", "-"))
    titles = [
        it.text for it in picture.iter(f"{SPACE}title") if not (it.text or "").startswith("cycle ")
    ]
    assert titles == [
        "every=200+50: 650 ns",
        "every=200+50: 850 ns",
        "every=200+50: 1050 ns",
        "0x2c, cycle 100",
        "0x10:0x34=20: 36 cycles, from cycle 72 on",
        "deadline of 0x10:0x34=20: cycle 92",
    ]
    dump = Dump(said(viewing, *words, *marks, "--vcd", "-"))
    ones = {
        name: [
            60 + at
            for at, (_, it) in enumerate(dump.times[:-1])
            if it[f"flexpret.marks.{name}"] == "1"
        ]
        for name in ("0x10_0x34_20", "0x2c", "every_200_50")
    }
    assert ones == {"0x10_0x34_20": [*range(72, 108)], "0x2c": [100], "every_200_50": [65, 85, 105]}


def test_an_armed_deadline_is_in_the_picture(viewing: Tool) -> None:
    words = ("examples/c/pid.toml", "--from", "0", "--to", "800", "--threads", "0", "--svg", "-")
    titles = [
        it.text or "" for it in ElementTree.fromstring(said(viewing, *words)).iter(f"{SPACE}title")
    ]
    assert [it for it in titles if it.startswith("T0 has armed")]


EVENT_FORM = (
    "it is pc=ADDRESS, trap, trap=CAUSE, store=ADDRESS or wait,"
    " and may go on with ,nth=N and ,thread=I"
)

MARK_FORM = (
    "a mark is ADDRESS, a section A:B or A:B=CYCLES with its deadline,"
    " or every=NS or every=NS+START, in nanoseconds"
)
NAMES = "an executable or a map: give --elf FILE or --map FILE"
HELP = "; --help has the options"
DRIVE = ("examples/drive.toml", "--from", "0", "--to", "5")
AROUND = ("examples/drive.toml", "--around")


@pytest.mark.parametrize(
    ("words", "line"),
    [
        ((*AROUND, "foo"), f"foo: {EVENT_FORM}"),
        ((*AROUND, "wait=3"), f"wait=3: {EVENT_FORM}"),
        ((*AROUND, "pc="), f"pc=: {EVENT_FORM}"),
        ((*AROUND, "trap,nth=1,nth=2"), f"trap,nth=1,nth=2: {EVENT_FORM}"),
        ((*AROUND, "trap,first"), f"trap,first: {EVENT_FORM}"),
        ((*AROUND, "trap,nth=0"), "trap,nth=0: 0 is no number from 1 to 4294967295"),
        ((*AROUND, "trap,thread=8"), "trap,thread=8: 8 is no number from 0 to 7"),
        ((*AROUND, "trap=9"), "trap=9: the causes are 0, 1, 2, 3, 4, 5, 6, 7, 11, 24"),
        ((*AROUND, "pc=main"), f"pc=main: main is a name, and names need {NAMES}"),
        ((*AROUND, "store=0x100000000"), "store=0x100000000: 0x100000000 is above 0xffffffff"),
        (
            (*AROUND, "pc=0", "--before", "0", "--after", "0"),
            "cycles 0 to 0: --before and --after leave no cycle",
        ),
        ((*AROUND, "trap", "--from", "3"), f"--around EVENT, or --from CYCLE and --to CYCLE{HELP}"),
        ((*DRIVE, "--within", "3"), f"--within is of --around{HELP}"),
        (
            ("examples/drive.toml", "--from", "0"),
            f"--from CYCLE and --to CYCLE, or --around EVENT, are missing{HELP}",
        ),
        (
            ("examples/drive.toml", "--from", "5", "--to", "5"),
            f"--from 5 --to 5: --from is below --to{HELP}",
        ),
        (
            ("examples/drive.toml", "--from", "0", "--to", "3999999998"),
            f"argument --to: '3999999998' is no number from 0 to 3999999997{HELP}",
        ),
        (
            ("examples/drive.toml", "--from", "0", "--to", "100001"),
            "cycles 0 to 100001: a window has at most 100000 cycles",
        ),
        (
            ("examples/drive.toml", "--from", "0", "--to", "300", "--svg", "-", "--zoom", "20"),
            "cycles 0 to 300: a picture has at most 2000 cycles, and 4000 by the zoom",
        ),
        ((*DRIVE, "--zoom", "2"), f"--zoom is of --svg{HELP}"),
        ((*DRIVE, "--stages", "--vcd", "-"), f"--stages is of --svg{HELP}"),
        ((*DRIVE, "--konata", "-", "--mark", "4"), f"--mark isn't for --konata{HELP}"),
        (
            (*DRIVE, "--threads", "0,9"),
            f"argument --threads: '0,9' is no list of threads, as 0,2{HELP}",
        ),
        ((*DRIVE, "--mark", "0x3g"), "0x3g: 0x3g is no address: a number, NAME or NAME+NUMBER"),
        ((*DRIVE, "--mark", "every=0"), f"every=0: {MARK_FORM}"),
        ((*DRIVE, "--mark", "4=7"), f"4=7: {MARK_FORM}"),
        ((*DRIVE, "--mark", "4:8=x"), f"4:8=x: {MARK_FORM}"),
        (
            (*DRIVE, "--mark", "4:8=4000000001"),
            "4:8=4000000001: a deadline has 4000000000 cycles at most",
        ),
        ((*DRIVE, "--elf", "README.md"), "README.md is no ELF file: Magic number does not match"),
    ],
)
def test_an_argument_that_is_wrong(viewing: Tool, words: tuple[str, ...], line: str) -> None:
    assert refused(viewing, *words) == (2, f"fp_view: {line}")


def test_a_setup_that_is_refused_or_missing(viewing: Tool, tmp_path: Path) -> None:
    setup = tmp_path / "a.toml"
    setup.write_text("version = 1\n")
    ran = viewing("fp_view", setup, "--around", "trap")
    assert (ran.returncode, ran.stdout[:14], ran.stderr) == (3, "refused setup ", "")
    status, line = refused(viewing, str(tmp_path / "b.toml"), "--from", "0", "--to", "4")
    assert status == 7 and "b.toml: the setup isn't there" in line


def test_a_file_is_whole_or_as_it_was(viewing: Tool, tmp_path: Path) -> None:
    out = tmp_path / "a.svg"
    out.write_text("before")
    assert refused(viewing, *AROUND, "trap", "--within", "9", "--svg", str(out))[0] == 1
    assert out.read_text() == "before"
    said(viewing, *DRIVE, "--svg", str(out))
    assert out.read_text().endswith("</svg>\n")
    missing = tmp_path / "none" / "a.svg"
    text = f"fp_view: {missing} can't be written: No such file or directory"
    assert refused(viewing, *DRIVE, "--svg", str(missing)) == (8, text)
