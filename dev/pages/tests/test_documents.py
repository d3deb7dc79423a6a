"""The scripts that check the documents: what they accept as it stands, and what they refuse once it is changed."""
from __future__ import annotations

import os
import re
import shutil
import subprocess
import sys
from pathlib import Path

import pytest
from fptools.testing.common import TOP


def said(script: str, *arguments: object) -> tuple[int, str]:
    """The status of a script and what it writes, by the Python that runs the tests; the model answers in place of the program."""
    environment = {name: value for name, value in os.environ.items() if name != "FLEXPRET"}
    done = subprocess.run(
        [sys.executable, "-m", f"dev.pages.{script.removesuffix('.py')}", *map(str, arguments)],
        cwd=TOP,
        env=environment,
        capture_output=True,
        text=True,
        check=False,
    )
    return done.returncode, done.stdout + done.stderr


@pytest.fixture
def docs(tmp_path: Path) -> Path:
    """A copy of the pages for users."""
    folder = tmp_path / "docs"
    folder.mkdir()
    (folder / "dev").mkdir()
    for page in (TOP / "docs").glob("*.md"):
        shutil.copy(page, folder)
    shutil.copy(TOP / "docs/dev/REFUSALS.md", folder / "dev")
    return folder


def change(page: Path, old: str, new: str) -> None:
    """Replaces a text of a page, which has to be there."""
    text = page.read_text()
    assert old in text
    page.write_text(text.replace(old, new, 1))


def test_sentences_and_words_keep_their_limits() -> None:
    status, text = said("prose.py")
    assert status == 0, text


def test_a_long_sentence_is_reported(tmp_path: Path) -> None:
    page = tmp_path / "page.md"
    page.write_text(
        "# Page\n\nShort.\n\n" + " ".join(["word"] * 36) + ".\n\n    code " + "word " * 40 + "\n"
    )
    status, text = said("prose.py", page)
    assert status == 1 and "page.md:5: 36 words" in text and "mean sentence  18.5" in text


def test_man_pages_and_helps_are_read(tmp_path: Path) -> None:
    man, tool = tmp_path / "it.1", tmp_path / "fp_it"
    man.write_text(
        ".TH IT 1\n.SH NAME\n" + "word " * 20 + "\n.B bold\n" + "word " * 20 + "\n.PP\nShort.\n"
    )
    tool.write_text(
        '"""Short.\n\n' + "word " * 30 + '; more"""\nadd("x", help="' + "word " * 40 + '")\n'
    )
    status, text = said("prose.py", man, tool)
    assert (
        status == 1 and "it.1:3: 41 words" in text and "40 words" in text and "30 words" not in text
    )


def test_computed_helps_and_scripts_are_read(tmp_path: Path) -> None:
    """A help may be an f-string, a name, or a name of another module; a script's help is behind END_OF_HELP."""
    tool, script = tmp_path / "fp_it", tmp_path / "it"
    tool.write_text(
        '"""Short."""\nfrom fptools.program.calls import HELP\nwhat = "' + "word " * 36 + '"\n'
        'add("a", help=what)\nadd("b", help=f"' + "word " * 40 + '{N}")\nadd("c", help=HELP)\n'
    )
    script.write_text(
        "#!/usr/bin/env bash\ncat <<'END_OF_HELP'\n  --it  "
        + "word " * 37
        + "\n  --more  an item of its own\nEND_OF_HELP\n"
    )
    status, text = said("prose.py", "--longest", 9, tool, script)
    assert (
        status == 1
        and "36 words: word" in text
        and "41 words: word" in text
        and "38 words: --it" in text
    )
    assert "the variable FLEXPRET names" in text


@pytest.mark.parametrize(
    "line",
    [
        "- item\n  goes on",
        "| a | b |\n|---|---|\n| one | two |",
        "1. first\n2. second",
        "`code` [link](x.md)",
    ],
)
def test_other_text_is_no_long_sentence(tmp_path: Path, line: str) -> None:
    page = tmp_path / "page.md"
    page.write_text(f"{line}\n")
    assert said("prose.py", page)[0] == 0


def test_numbers_are_those_of_the_code() -> None:
    assert said("doc_numbers.py") == (0, "doc_numbers.py: 8 kinds of numbers, 0 differ\n")


@pytest.mark.parametrize(
    "page, old, new, told",
    [
        ("PROGRAMMING.md", "| 2 | loads;", "| 2 | GT, loads;", "lags: GT isn't of lag 2"),
        ("PROGRAMMING.md", "REMU |", "REM |", "lags: REMU has no row; its lag is 2"),
        ("PROGRAMMING.md", "| 24 | the armed", "| 25 | the armed", "causes: 24 is EXPIRY"),
        ("PROGRAMMING.md", "| 0x7c1 |", "| 0x7c4 |", "CSRs: modes is 0x7c1"),
        ("PROGRAMMING.md", "| `ee rs1, rs2` | 4 |", "| `ee rs1, rs2` | 6 |", "timing instructions: ee isn't 6"),
        ("BOUNDS.md", "| loads; MUL to REMU | the next word, 2 |", "| loads; MUL to REMU | the next word, 1 |", "costs: loads costs 2"),
        ("BOUNDS.md", "| 9 Recursion |", "| 7 Recursion |", "Refusals: (9, 'Recursion') has no row"),
        ("COMMANDS.md", "| 10 | the list", "| 11 | the list", "statuses: the code has"),
        ("COMMANDS.md", "| 8 BadMode |", "| 8 BadModes |", "Setups: (8, 'BadModes') isn't in the code"),
        ("COMMANDS.md", "4,096 inputs", "4,097 inputs", "limits: COMMANDS.md doesn't say"),
        ("VIEW.md", "at most 2,000 cycles", "at most 2,001 cycles", "limits: VIEW.md doesn't say"),
    ],
)  # fmt: skip
def test_another_number_is_reported(docs: Path, page: str, old: str, new: str, told: str) -> None:
    change(docs / page, old, new)
    status, text = said("doc_numbers.py", docs)
    assert status == 1 and told in text


def test_a_page_that_is_missing_is_reported(docs: Path) -> None:
    (docs / "BOUNDS.md").unlink()
    status, text = said("doc_numbers.py", docs)
    assert status == 2 and "BOUNDS.md" in text


def test_shown_traces_are_those_of_the_programs() -> None:
    status, text = said("page_traces.py")
    assert status == 0, text
    assert re.search(r"[1-9]\d* programs, [1-9]\d* lines, 0 differ", text)


def test_another_trace_is_reported(docs: Path) -> None:
    change(docs / "PROGRAMMING.md", "# 17 00000020 00a5a00b -", "# 14 00000020 00a5a00b -")
    status, text = said("page_traces.py", docs / "PROGRAMMING.md")
    assert status == 1 and "the trace doesn't have: 14 00000020 00a5a00b -" in text


def test_links_lead_somewhere() -> None:
    status, text = said("links.py")
    assert status == 0, text


@pytest.mark.parametrize("link", ["gone.md", "page.md#gone", "#gone"])
def test_a_link_that_leads_nowhere_is_reported(tmp_path: Path, link: str) -> None:
    page = tmp_path / "page.md"
    page.write_text(f"# A page\n\n[it]({link}) [there](#a-page) [web](https://example.org)\n")
    status, text = said("links.py", page)
    assert status == 1 and f"3: {link}: no such" in text and "1 links lead nowhere" in text


def test_definitions_and_their_files_are_in_the_crates() -> None:
    assert said("doc_names.py") == (0, "doc_names.py: 0 names aren't in the tree\n")


@pytest.mark.parametrize(
    "page, old, new, told",
    [
        ("DEFINITIONS.md", "| Lag.antt |", "| Lags.antt |", "Lags.antt: no such file"),
        ("DEFINITIONS.md", "| fp_io: Causes.antt |", "| fp_setup: Causes.antt |", "Causes.antt: no such file"),
        ("DEFINITIONS.md", "`ins w`", "`inst w`", "inst: not declared in Table.antt"),
        ("DEFINITIONS.md", "(Relation.antt)", "(Relations.antt)", "Relations.antt: no such file"),
        ("DEFINITIONS.md", "| fp_ports: device.rt |", "| fp_ports: lib.rt |", "word_at: not declared in fp_ports: lib.rt"),
        ("ARCHITECTURE.md", "command_line/specs/Commands.antt", "fp_lex/specs/Commands.antt", "Commands.antt: no such file"),
        ("DEFINITIONS.md", "| `edges_of` |", "| `edges` |", "edges: not declared in region_tree: Edges.antt"),
        ("LIBRARY.md", "commands/src/bound.rt", "commands/src/bounds.rt", "bounds.rt: no such file"),
    ],
)  # fmt: skip
def test_another_definition_or_file_is_reported(
    tmp_path: Path, page: str, old: str, new: str, told: str
) -> None:
    copy = Path(shutil.copy(TOP / "docs/dev" / page, tmp_path))
    change(copy, old, new)
    status, text = said("doc_names.py", copy)
    assert status == 1 and told in text


def test_figures_are_those_that_are_drawn() -> None:
    status, text = said("figures.py", "--check")
    assert status == 0, text


def test_another_figure_is_reported(tmp_path: Path) -> None:
    status, text = said("figures.py", "--check", tmp_path)
    assert status == 1 and "flow.svg isn't what is drawn now" in text


def test_places_of_an_instruction() -> None:
    status, text = said("places.py", "gth", "ee")
    assert status == 0
    for place in (
        "/Lag.antt",
        "/Table.antt",
        "/Mnemonics.antt",
        "/Edges.antt",
        "/encoder.rt",
        "model/instructions.py",
        "docs/FORMATS.md",
    ):
        assert place in text
    assert said("places.py", "f" "sqrt")[0] == 1
