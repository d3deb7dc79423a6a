"""Help, man pages and completion of the scripts, and their installation."""
from __future__ import annotations

import os
import re
import shlex
import shutil
import subprocess
import sys
from pathlib import Path

import pytest
from fptools.testing.common import TOOLS, TOP
from fptools.launch.tests.scripts import elf


def help_forms() -> list[str]:
    """The commands that --help shows, with their arguments and without the script's options."""
    text = subprocess.run(
        [TOP / "flexpret", "--help"], capture_output=True, text=True, check=True
    ).stdout
    forms = re.findall(r"^  (flexpret [a-z]+ [A-Z][A-Z]*(?: --[a-z]+ [A-Z]+)*)", text, re.M)
    return [form for form in forms if form.split()[1] not in ("disasm",)]


def test_the_forms_of_help_are_those_of_the_page() -> None:
    page = TOP / "docs/COMMANDS.md" if (TOP / "docs/COMMANDS.md").exists() else TOP / "README.md"
    table = re.findall(r"^\| (?:`(\w+) |\[`(\w+)`\]\(\S+\) `)([A-Z][^`]*)`", page.read_text(), re.M)
    forms = [f"flexpret {first or second} {rest}" for first, second, rest in table]
    assert help_forms() == [
        re.sub(r"(?<= )[a-z](?= |$)", lambda it: str(it[0]).upper(), form) for form in forms
    ]


def test_the_forms_are_those_of_the_man_page_and_the_completion() -> None:
    forms = help_forms()
    assert len(forms) == 10
    page = (TOP / "tools/flexpret.1").read_text()
    synopsis = re.findall(r"^\.B (flexpret .*)$", page[: page.index(".SH DESCRIPTION")], re.M)
    shown = [re.sub(r"\\f[IP]|\\(?=-)", "", line) for line in synopsis]
    assert [re.sub(r" \[.*", "", line) for line in shown if "disasm" not in line] == forms
    assert offered("flexpret", "") == [*(form.split()[1] for form in forms), "disasm"]
    for form in forms:
        offers = offered("flexpret", form.split()[1], "-")
        assert [it for it in offers if it not in SCRIPTS_OPTIONS] == re.findall("--[a-z]+", form)


SCRIPTS_OPTIONS = ("-o", "--listing", "--map", "--elf", "--quiet")
"""The options behind a command that the script takes, or a tool."""


def test_the_texts_say_which_options_may_follow_the_command() -> None:
    """`test_quiet_turns_lines_off` calls the scripts so."""
    page = " ".join((TOP / "docs/COMMANDS.md").read_text().split())
    assert "the command; only `--quiet` and `--help` may also follow it." in page
    for name in ("flexpret", "flexpret-view"):
        text = subprocess.run(
            [TOP / name, "--help"], capture_output=True, text=True, check=True
        ).stdout
        assert re.search(r"^  --quiet .*; it may also follow ", text, re.M)
        page = (TOP / f"tools/{name}.1").read_text().replace("\\-", "-")
        assert "command, --quiet and --help also after it:" in page


@pytest.mark.parametrize(
    "option", ["--quiet", "--model", "--unproved", "--use", "--version", "--help"]
)
def test_the_scripts_options_are_in_help_man_page_and_completion(option: str) -> None:
    for name in ("flexpret", "flexpret-view") if option != "--model" else ("flexpret",):
        text = subprocess.run(
            [TOP / name, "--help"], capture_output=True, text=True, check=True
        ).stdout
        assert option in text
        assert option.replace("-", "\\-") in (TOP / f"tools/{name}.1").read_text()
        assert option in offered(name, "--")


@pytest.mark.parametrize("name", ["flexpret", "flexpret-view"])
def test_a_man_page_is_shown_without_warnings(name: str) -> None:
    page = TOP / f"tools/{name}.1"
    assert not re.search(r"(?<!\\)-[-0-9]", page.read_text()), "a minus of an option is written \\-"
    if not shutil.which("groff"):
        pytest.skip("groff isn't installed")
    shown = subprocess.run(
        ["groff", "-man", "-ww", "-Tascii", page], capture_output=True, text=True, check=True
    )
    assert shown.stderr == ""


def test_the_form_of_the_view_is_that_of_its_man_page_and_completion() -> None:
    form = re.search(
        r"^    \./(flexpret-view turns SETUP .*)$", (TOP / "docs/VIEW.md").read_text(), re.M
    )
    assert form
    page = (TOP / "tools/flexpret-view.1").read_text()
    synopsis = page[page.index(".SH SYNOPSIS\n") : page.index(".SH DESCRIPTION")].split("\n", 1)[1]
    assert " ".join(re.sub(r'\.(BI|B|I) |\\f[BIP]|\\(?=-)|"', "", synopsis).split()) == form[1]
    assert offered("flexpret-view", "turns", "--") == re.findall("--[a-z]+", form[1])


def install(*words: object, **named: str) -> subprocess.CompletedProcess[str]:
    return subprocess.run(
        [TOP / "tools/install.sh", *map(str, words)], env={**os.environ, **named}, capture_output=True, text=True, check=False,
    )  # fmt: skip


def test_install_puts_program_page_and_completion(
    tmp_path: Path, monkeypatch: pytest.MonkeyPatch
) -> None:
    for name in ("FLEXPRET", "FLEXPRET_VIEW"):
        monkeypatch.delenv(name, raising=False)
    prefix, program = tmp_path / "prefix", elf(tmp_path / "program")
    for view, names in (
        ("/none", ["flexpret"]),
        (elf(tmp_path / "view"), ["flexpret", "flexpret-view"]),
    ):
        assert install(prefix, FLEXPRET=program, FLEXPRET_VIEW=view).returncode == 0
        assert sorted(it.name for it in prefix.glob("bin/*")) == names
    for name in names:
        ran = subprocess.run(
            [prefix / "bin" / name, "installed"], capture_output=True, text=True, check=True
        )
        assert (ran.stdout, ran.stderr) == ("installed\n", "")
        shown = subprocess.run(
            [prefix / "bin" / name, "--help"], capture_output=True, text=True, check=True
        )
        assert shown.stdout.startswith(f"usage: {name} ")
        version = subprocess.run(
            [prefix / "bin" / name, "--version"], capture_output=True, text=True, check=True
        )
        assert "no record says from which sources it was built" in version.stdout
        assert (prefix / f"share/man/man1/{name}.1").read_text() == (
            TOP / f"tools/{name}.1"
        ).read_text()
        assert (prefix / "share/bash-completion/completions" / name).is_file()
    assert install().returncode == 2


def test_installed_tools_find_the_model(tmp_path: Path) -> None:
    assert (
        install(tmp_path, FLEXPRET=elf(tmp_path / "program"), FLEXPRET_VIEW="/none").returncode == 0
    )
    image = TOP / "examples/sum.fpx"
    shown = subprocess.run(
        [tmp_path / "bin/flexpret", "disasm", image], capture_output=True, text=True, check=False
    )
    own = subprocess.run(
        [sys.executable, TOOLS / "fp_disasm", image], capture_output=True, text=True, check=True
    )
    assert (shown.returncode, shown.stdout, shown.stderr) == (0, own.stdout, "")


def test_install_puts_no_script(tmp_path: Path) -> None:
    program, prefix = elf(tmp_path / "program"), tmp_path / "prefix"
    for named in (
        {"FLEXPRET": str(TOP / "flexpret")},
        {"FLEXPRET": program, "FLEXPRET_VIEW": str(TOP / "flexpret-view")},
    ):
        ran = install(prefix, **named)
        script = list(named.values())[-1]
        text = f"install.sh: {script} is no ELF executable: name the program itself, no script that calls it\n"
        assert (ran.returncode, ran.stderr) == (1, text)
    assert not prefix.exists()


def offered(*words: str) -> list[str]:
    """What is offered for the last of a line's words, as bash takes them apart."""
    function = f"_{words[0].replace('-', '_')}"
    line = f"COMP_WORDS=({' '.join(map(shlex.quote, words))}); COMP_CWORD={len(words) - 1}"
    script = f". tools/flexpret.bash; {line}; {function}; echo ${{COMPREPLY[@]}}"
    return subprocess.run(
        ["bash", "-c", script], cwd=TOP, capture_output=True, text=True, check=True
    ).stdout.split()


def test_completion_offers_commands_options_and_values() -> None:
    assert offered("flexpret", "p") == ["phases"]
    assert offered("flexpret", "bound", "--") == [
        "--thread",
        "--from",
        "--to",
        "--elf",
        "--map",
        "--quiet",
    ]
    assert offered("flexpret", "run", "x.toml", "--thread", "7") == ["7"]
    assert "README.md" in offered("flexpret", "asm", "READ")


def test_completion_behind_an_equals_sign() -> None:
    assert offered("flexpret", "run", "--thread", "=") == list("01234567")
    assert offered("flexpret", "run", "--thread", "=", "7") == ["7"]
    assert offered("flexpret", "run", "--cycles", "=") == []
    assert offered("flexpret", "check", "--trace", "=", "READ") == ["README.md"]
    assert offered("flexpret-view", "turns", "--progress", "=") == ["before", "all"]


def test_completion_of_the_view() -> None:
    assert offered("flexpret-view", "") == ["turns", "show"]
    shown = subprocess.run(
        [TOP / "tools/fp_view", "--help"], capture_output=True, text=True, check=True
    ).stdout
    options = set(re.findall(r"--[a-z]+", shown.partition("options:")[2])) - {"--help"}
    assert set(offered("flexpret-view", "show", "--")) == options
    assert offered("flexpret-view", "show", "x.toml", "--around", "READ") == []
    assert offered("flexpret-view", "turns", "x.toml", "--progress", "b") == ["before"]
    assert offered("flexpret-view", "turns", "READ") == ["README.md"]
    assert offered("flexpret-view", "turns", "--svg", "READ") == ["README.md"]


@pytest.mark.parametrize("name", ["fp_budget", "fp_report"])
def test_completion_of_a_tool(name: str) -> None:
    shown = subprocess.run(
        [TOOLS / name, "--help"], capture_output=True, text=True, check=True
    ).stdout
    options = set(re.findall(r"^  (?:-h, )?(--?[a-z-]+)", shown.partition("\noptions:")[2], re.M))
    assert set(offered(name, "-")) == options
    assert offered(name, "--thread", "=", "7") == ["7"]
    assert offered(name, "READ") == ["README.md"]


def test_completion_of_assumptions() -> None:
    assert offered("fp_budget", "--assume", "no") == "no traps no configuration writes".split()
    assert offered("fp_budget", "--assume", "stack") == ["stack", "fits"]
