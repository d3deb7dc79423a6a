"""Statements of the pages that no table holds: each is compared with the tree or the model."""
from __future__ import annotations

import json
import os
import re
import subprocess
import sys
import tomllib
from pathlib import Path
from typing import Any

import pytest
from dev.gate.parts import parts
from fptools import PACKAGES
from fptools.budget import files
from fptools.files import lint
from fptools.testing.common import TOP, document


def text_of(page: str) -> str:
    """A page of docs/ as one line, with single spaces."""
    return " ".join(document(page).read_text().split())


def asked(*words: str) -> str:
    """What the model writes."""
    ran = subprocess.run(
        [sys.executable, "-m", "model", *words], cwd=TOP, capture_output=True, text=True, check=True
    )
    return ran.stdout


def test_cycle_0_is_the_first_one_even_if_nothing_is_fetched(tmp_path: Path) -> None:
    assert "whether or not something is fetched in it" in text_of("FLEXPRET.md")
    setup = (TOP / "examples/sum.toml").read_text()
    first = tmp_path / "first.toml"
    first.write_text(
        re.sub(
            r"^slots = .*$", 'slots = ["S", "T0", "S", "S", "D", "D", "D", "D"]', setup, flags=re.M
        )
    )
    trace = asked("run", str(first), "--thread", "0", "--cycles", "20").splitlines()
    assert int(trace[0][:10]) == 1


def test_the_lines_of_a_dump_are_those_of_the_example_that_the_page_names() -> None:
    """The codes of the table: whole lines, or the beginnings of lines where `..` follows or there is one word only."""
    page = document("COMMANDS.md").read_text()
    _, _, part = page.partition("\n## dump\n")
    part, _, _ = part.partition("\n## phases\n")
    named = re.search(r"of `(examples/\w+\.toml)`, n = (\d+):", part)
    assert named
    lines = asked("dump", named[1], "--cycles", named[2]).splitlines()
    cells = [row.split(" | ")[0] for row in part.splitlines() if row.startswith("|")]
    shown = [it for cell in cells for it in re.findall(r"`(.+?)( \.\.)?`( \.\.)?", cell)]
    assert len(shown) == 18
    for text, *abridged in shown:
        is_begun = any(abridged) or " " not in text
        assert text in lines or is_begun and any(it.startswith(f"{text} ") for it in lines), text


def test_places_have_each_spelling_and_the_counts() -> None:
    ran = subprocess.run(
        [sys.executable, "-m", "dev.pages.places", "--lines", "gth", "ee"],
        cwd=TOP,
        capture_output=True,
        text=True,
        check=True,
    )
    for place in (
        "docs/BOUNDS.md",
        "docs/GLOSSARY.md",
        "docs/dev/DEFINITIONS.md",
        "docs/C.md",
        "examples/c/flexpret.h",
        "rtl/flexpret.sv",
    ):
        assert f"  {place}: " in ran.stdout
    _, _, counted = ran.stdout.partition("the number of timing instructions:")
    assert counted.split() == ["README.md", "docs/FLEXPRET.md"]


def test_the_recipe_for_a_thread_3_is_a_whole_table(tmp_path: Path) -> None:
    """The table has the keys that a setup requires, and the model takes it. C leads to it."""
    page = document("PROGRAMMING.md").read_text()
    shown = re.findall(r"^ {7}(\[\[thread\]\]\n(?: {7}.*\n)+)", page, re.M)
    (table,) = [it for it in shown if "id = 3" in it]
    table = re.sub(r"^ +", "", table, flags=re.M)
    (thread,) = tomllib.loads(table)["thread"]
    assert thread == {"id": 3, "mode": "hard", "entry": 0x1800, "confined": True}
    setup = tmp_path / "more.toml"
    setup.write_text((TOP / "examples/calls.toml").read_text() + "\n" + table)
    asked("run", str(setup), "--thread", "3", "--cycles", "9")
    assert "](PROGRAMMING.md#to-set-up-one-more-thread)" in document("C.md").read_text()


def test_each_folder_with_a_try_sh_is_named() -> None:
    page = (TOP / "examples/README.md").read_text()
    folders = [it.parent.name for it in (TOP / "examples").glob("*/try.sh")]
    assert len(folders) >= 5
    for folder in folders:
        assert f"`{folder}`" in page and f"]({folder}" in page, folder


def test_each_setup_of_the_examples_has_a_row() -> None:
    page = (TOP / "examples/README.md").read_text()
    for setup in (TOP / "examples").glob("*.toml"):
        assert f"]({setup.name})" in page, setup.name


def test_figures_show_files_that_the_pages_have() -> None:
    drawn = re.findall(r">(t\d_\w+)\.c<", (TOP / "docs/flow.svg").read_text())
    assert drawn
    for name in drawn:
        assert f"own/{name}.c" in document("C.md").read_text()


def test_the_view_has_what_the_definition_has() -> None:
    """The fields of a view, and the word of the page for each."""
    defined = (TOP / "crates/core_model/specs/View.antt").read_text()
    fields = set(re.findall(r"^  pub (\w+) : ", defined, re.M))
    words = {
        "period": "period",
        "size": "size of the scratchpads",
        "thread": "its number",
        "own": "slots",
        "i_kinds": "kinds of the regions",
        "d_kinds": "kinds of the regions",
        "i_words": "own regions and the read only ones",
        "d_words": "own regions and the read only ones",
        "setting": "view",
        "first": "entry",
        "shown": "words at its port",
    }
    assert fields == set(words)
    page = text_of("ASSUMPTIONS.md")
    for word in words.values():
        assert word in page[page.index("The *view* is") :]


@pytest.mark.parametrize("page", ["VIEW.md", "COMMANDS.md"])
def test_the_status_of_the_scripts_is_named(page: str) -> None:
    (number,) = re.findall(
        r"^readonly NOT_BUILT=(\d+)$", (TOP / "tools/launch.bash").read_text(), re.M
    )
    assert number in text_of(page)


def test_the_region_in_the_first_program() -> None:
    """Data region 2 begins at the address that `lui` gives, as the comment says."""
    assert "lui  x1, 0x20001        # data region 2" in document("FIRST.md").read_text()
    assert 0x2000_0000 + 2 * 2048 == 0x2000_1000


def test_the_gate_runs_the_model() -> None:
    page, last = (TOP / "model/README.md").read_text(), {it.name: it.command[-1] for it in parts(1)}
    assert (last["tables of the model"], last["model"]) == ("model.tables.check", "model")
    assert "The gate runs its tests" in page and "--model" in page


def test_the_packages_are_those_that_the_tools_import() -> None:
    """Pages and Makefiles name Debian's packages of the tools, and no other one for Python."""
    debian = {name for _, name in PACKAGES.values()}
    told = [TOP / "README.md", document("C.md"), TOP / "tools/README.md"]
    for page in told:
        assert debian - {"python3-jinja2"} <= set(
            re.findall(r"python3-\w+", page.read_text())
        ), page
    makefiles = (TOP / "examples").rglob("Makefile")
    for page in [*told, *makefiles, document("VIEW.md"), TOP / "tools/fptools/__init__.py"]:
        assert set(re.findall(r"python3-\w+", page.read_text())) <= debian, page
    assert "Python 3.11 and two packages" in (TOP / "tools/README.md").read_text()


def test_only_bounds_refuse_a_thread_without_a_slot(tmp_path: Path) -> None:
    assert (
        "| 2 NoSlot | `bound`, `calls`: no slot is the thread's |"
        in document("COMMANDS.md").read_text()
    )
    setup = tmp_path / "none.toml"
    setup.write_text((TOP / "examples/sum.toml").read_text().replace('"T0", "S"', '"S", "S"', 1))
    assert asked("solo", str(setup), "--thread", "0", "--cycles", "50") == ""
    words = ["bound", str(setup), "--thread", "0", "--from", "0x10", "--to", "0x3c"]
    ran = subprocess.run(
        [sys.executable, "-m", "model", *words],
        cwd=TOP,
        capture_output=True,
        text=True,
        check=False,
    )
    assert (ran.returncode, ran.stdout) == (3, "refused section 2 NoSlot\n")


def test_each_assumption_is_in_the_list_that_formats_names() -> None:
    assert "what isn't checked: [tools](../tools/README.md#when-a-budget-is-unknown)" in text_of(
        "FORMATS.md"
    )
    page = (TOP / "tools/README.md").read_text()
    part = page.split("## When a budget is UNKNOWN\n")[1].split("\n## ")[0]
    for it in files.Assumption:
        assert f'"{it.value}"' in part, it


def test_the_parts_of_the_program_in_c_are_in_its_file() -> None:
    blocks = re.findall(r"^```c\n(.*?)^```$", document("C.md").read_text(), re.M | re.S)
    source = (TOP / "examples/own/t0_motor.c").read_text()
    assert len(blocks) == 2 and all(it in source for it in blocks)


def test_the_sweep_names_what_its_scripts_have() -> None:
    page = (TOP / "examples/sweep/README.md").read_text()
    script = (TOP / "examples/sweep/make.py").read_text()
    for name in ("SETUP", "LOOP_NS"):
        assert f"`{name}`" in page and re.search(rf"^{name} = ", script, re.M)
    assert (TOP / "examples/sweep/job.sh").read_text().count("./flexpret ") == 2


def rows_under(page: Path, heading: str) -> list[str]:
    """The first cell of each row of the tables under a heading, without code marks."""
    part = page.read_text().split(f"\n{heading}\n", 1)[1].split("\n## ", 1)[0]
    return [it.split("|")[1].strip() for it in part.splitlines() if re.match(r"\| `", it)]


def keys_of(schema: dict[str, Any]) -> set[str]:
    """The keys of a schema's tables, at any depth."""
    found = set(schema.get("properties", {}))
    for part in schema.values():
        for inner in part if isinstance(part, list) else [part]:
            if isinstance(inner, dict):
                found |= keys_of(inner)
    return found


@pytest.mark.parametrize(
    "heading, schema, more",
    [("## Setups", lint.SCHEMA, set()), ("## Budgets", files.SCHEMA, {"budget"})],
)
def test_the_keys_of_files_are_those_of_their_schema(
    heading: str, schema: Path, more: set[str]
) -> None:
    rows = rows_under(TOP / "docs/FORMATS.md", heading)
    shown = {key for row in rows for key in re.findall(r"`(\w+)`", row)} | more
    assert shown == keys_of(json.loads(schema.read_text()))


def test_each_tool_has_a_row() -> None:
    shown = set(
        re.findall(
            r"`(\w+|install\.sh)`",
            " ".join(rows_under(TOP / "tools/README.md", "## Which tool for what")),
        )
    )
    tools = {it.name for it in (TOP / "tools").glob("fp_*")} - {"fp_launch", "fp_model"}
    assert shown == tools | {"install.sh"}


def test_one_more_thread_in_c_has_the_keys_of_its_table() -> None:
    """Those of PROGRAMMING; the entry is that of region 3."""
    table = re.findall(
        r"^ +((?:mode|entry|confined) = \S+)$", document("PROGRAMMING.md").read_text(), re.M
    )[-3:]
    assert [it.split()[0] for it in table] == ["mode", "entry", "confined"]
    page = document("C.md").read_text()
    assert all(f"`{it}`" in page for it in table)


def test_each_option_of_the_script_has_a_row() -> None:
    """What ./flexpret --help shows, but for the arguments of its commands."""
    text = (TOP / "flexpret").read_text().split("END_OF_HELP")[1]
    options = set(re.findall(r"--\w+", text)) - {
        "--thread",
        "--cycles",
        "--trace",
        "--from",
        "--to",
        "--routines",
    }
    assert options == set(
        re.findall(r"--\w+", " ".join(rows_under(TOP / "docs/COMMANDS.md", "## The script")))
    )


ONE_WORD = {
    r"\bvisits?\b": "execution",
    r"\bround[- ]robin\b": "the circle of soft threads",
    r"\bheld\b(?! again)": "only of a DU, and then as code",
    r"(?<!run is )\b[Qq]uiet\b(?! runs?\b|\*|\])": "only of a run",
}
"""Words that the pages for users have no other meaning for, each with what they say instead."""


def words_of(page: Path) -> str:
    """The text of a page without code and the targets of links. The glossary's row of the definitions' word is left out."""
    lines = page.read_text().splitlines()
    shown = [
        it for it in lines if not it.startswith(("    ", "| execution, visit", "| held |", "<!--"))
    ]
    return re.sub(r"`[^`]*`|\]\([^)]*\)", "]", " ".join(shown))


def test_one_word_has_one_meaning() -> None:
    pages = [
        TOP / "README.md",
        *(TOP / "docs").glob("*.md"),
        TOP / "rtl/README.md",
        TOP / "tools/README.md",
    ]
    for page in pages + [*(TOP / "examples").rglob("README.md")]:
        for word, instead in ONE_WORD.items():
            found = re.search(word, words_of(page))
            assert found is None, f"{page.name}: {found[0] if found else ''}: {instead}"


UNITS, COMMANDS = TOP / "crates/test_units/data", TOP / "crates/test_commands/data"

COUNTS = [
    (UNITS / "decode.txt", r"^(?!.*\bIllegal).*\t", "{} words of GNU as"),
    (UNITS / "decode.txt", r"^.*\bIllegal.*\t", "{} words of other extensions are illegal"),
    (UNITS / "results.txt", r"\t", "{} runs by qemu-riscv32"),
    (UNITS / "sources.txt", r"\t", "{} sources with images or faults"),
    (UNITS / "gnu.txt", r"\t", "{} lines with words by GNU as"),
    (UNITS / "elf.txt", r"\t", "{} executables,"),
    (UNITS / "bounds.txt", r"^(?:bound|refused) .*\t", "{} sections and"),
    (COMMANDS / "calls.txt", r"^=== ", "{} sections with functions"),
    (COMMANDS / "worlds.txt", r"^=== ", "{} random setups with images and ports"),
    (COMMANDS / "worlds.txt", r"^--- \d+ \$ solo ", "`solo` of {} confined hard threads"),
    (COMMANDS / "settings.txt", r"^=== ", "{} random setups with writes of slots and modes"),
    (COMMANDS / "settings.txt", r"^--- \d+ \$ run ", "`run` of {} confined threads"),
]
"""Tables, what begins a row of them, and what TESTING says of their number."""


@pytest.mark.parametrize("table, row, said", COUNTS)
def test_the_numbers_of_rows_are_those_of_the_tables(table: Path, row: str, said: str) -> None:
    number = sum(bool(re.search(row, line)) for line in table.read_text().splitlines())
    assert said.format(f"{number:,}") in text_of("dev/TESTING.md")


def test_the_runs_through_the_pipeline_and_the_setups_are_counted() -> None:
    page = text_of("dev/TESTING.md")
    runs = len((UNITS / "programs.txt").read_text().splitlines())
    assert runs == 6 and "six runs through the pipeline" in page
    setups = len(re.findall(r"^=== ", (UNITS / "setups.txt").read_text(), re.M))
    model, others = re.findall(r"(\d+) setups of the model .*?, and (\d+) others", page)[0]
    assert setups == int(model) + int(others)


PAGES = sorted(
    [
        TOP / "README.md",
        *(TOP / "docs").glob("*.md"),
        TOP / "docs/dev/DEVICES.md",
        TOP / "tools/README.md",
    ]
    + [TOP / "model/README.md", TOP / "rtl/README.md", *(TOP / "examples").rglob("README.md")]
)
"""The pages for users, and those with commands that they show."""

COMMAND = re.compile(
    r"^    (?:\./|tools/|examples/|crates/|model/|rtl/|work/|python3 |make |cc |cd |rt"
    r" |riscv64-|apt-get |gtkwave |sbatch )"
)

NOT_SHOWN_AS_RUN = {
    "apt-get ": "installs packages",
    "gtkwave ": "opens a window",
    "sbatch ": "needs a batch system",
    "./test": "the gate itself",
    "model/check.sh": "its two halves are parts of the gate",
    "examples/sweep/make.py work": "examples/sweep/try.sh, with fewer setups",
    "work/sweep.sh": "the same",
    "examples/sweep/table.py work": "the same",
    "cd work && gnuplot": "gnuplot isn't asked for",
    "tools/fp_budget prog.elf": "a form, with names of the reader's own",
    "riscv64-unknown-elf-gcc": "a form; the Makefile of examples/c has the same options",
    "tools/fp_layout x.s": "a part of that form",
    "tools/fp_budget first.toml period.toml": "dev/pages/tests/test_page_facts.py",
}
"""Commands without a `$`, each with where it is run, or why it isn't."""


def test_each_command_of_a_page_is_run() -> None:
    """With a `$` by the script of its page; else by examples/pages.sh, or as said above."""
    listed = (TOP / "examples/pages.sh").read_text()
    for page in PAGES:
        for line in page.read_text().splitlines():
            command = line.strip()
            if COMMAND.match(line) and command not in listed:
                assert any(
                    command.startswith(it) for it in NOT_SHOWN_AS_RUN
                ), f"{page.name}: {command}"


def test_each_page_with_commands_has_a_script() -> None:
    scripts = [
        *(TOP / "examples").rglob("*.sh"),
        TOP / "rtl/try.sh",
        TOP / "tools/fptools/commands/tests/test_readme.py",
    ]
    text = "\n".join(it.read_text() for it in scripts)
    for page in PAGES:
        if re.search(r"^    \$ ", page.read_text(), re.M):
            read = (
                rf"\b{page.stem}\b"
                if page.stem != "README"
                else f"{page.parent.name}.*README.md|README.md"
            )
            assert re.search(read, text), page


def test_the_period_of_the_first_program(flexpret: str, tmp_path: Path) -> None:
    """The last commands of FIRST's section 4, which need the packages of the tools."""
    page = document("FIRST.md").read_text()
    blocks = re.findall(
        r"^    (?:\$ )?cat >>? (\S+) <<'END'\n((?:    .*\n|\n)*?)    END$", page, re.M
    )
    files: dict[str, str] = {}
    for name, text in blocks:
        if name == "first.s" and name in files:
            break
        files[name] = files.get(name, "") + re.sub("^    ", "", text, flags=re.M)
    for name, text in files.items():
        (tmp_path / name).write_text(text)
    image = subprocess.run(
        [flexpret, "asm", "first.s"], cwd=tmp_path, capture_output=True, check=True
    )
    (tmp_path / "first.fpx").write_bytes(image.stdout)
    (call,) = re.findall(r"^    (?:\$ )?tools/(fp_budget first.toml period.toml)$", page, re.M)
    ran = subprocess.run(
        [sys.executable, *(TOP / "tools" / call).as_posix().split()],
        cwd=tmp_path,
        env={**os.environ, "FLEXPRET": flexpret},
        capture_output=True,
        text=True,
        check=False,
    )
    assert ran.returncode == 0 and ran.stdout.strip() in page
