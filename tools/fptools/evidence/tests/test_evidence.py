"""fp_evidence: its folder and page, the clauses that it quotes, its sentences against the tree."""
from __future__ import annotations

import hashlib
import html
import json
import os
import re
import shlex
import subprocess
import sys
from pathlib import Path
from types import SimpleNamespace
from typing import cast

import pytest
from fptools.testing.common import TOOLS, TOP, document


from dev.gate import gate
from dev.gate.parts import parts as parts_of_gate
from fptools.evidence.clauses import Crates, NoClause, clauses_of, digest
from fptools.evidence.evidence import (
    Evidence,
    comparisons_of,
    gate_record,
    promises_of,
    read_data,
)
from fptools.evidence.page import IS_NOT, NO_RECORD, warnings
from fptools.report.promises import CHECKS

PID = (
    "examples/c/pid.elf",
    "--setup",
    "examples/c/pid.toml",
    "--budgets",
    "examples/c/budgets.toml",
)
COMMAND = "crates/flexpret_top/src/command.rt"


def evidence(*words: object, seed: str = "0") -> subprocess.CompletedProcess[str]:
    """A call of the tool, with the answers of the model."""
    environment = {**os.environ, "FLEXPRET": str(TOOLS / "fp_model"), "PYTHONHASHSEED": seed}
    return subprocess.run(
        [sys.executable, str(TOOLS / "fp_evidence"), *map(str, words)],
        cwd=TOP,
        env=environment,
        capture_output=True,
        text=True,
        check=False,
    )


@pytest.fixture(scope="module")
def folder(tmp_path_factory: pytest.TempPathFactory) -> Path:
    """A folder of evidence for the controller."""
    made = tmp_path_factory.mktemp("evidence") / "pid"
    ran = evidence(*PID, "-o", made)
    assert (ran.returncode, ran.stdout) == (
        0,
        "holds    T0 a step of the controller: 352 of 400 cycles (3520 ns)\n",
    )
    return made


def plain(page: str) -> str:
    """The text of a page of HTML, with single spaces."""
    return " ".join(html.unescape(re.sub("<[^>]*>", " ", page)).split())


def test_the_folder_is_whole_and_its_checksums_are_right(folder: Path) -> None:
    names = {str(it.relative_to(folder)) for it in folder.rglob("*") if it.is_file()}
    assert names == {
        "index.html",
        "evidence.json",
        "definitions.txt",
        "sources.sha256",
        "SHA256SUMS",
        "inputs/setup.toml",
        "inputs/image.fpx",
        "inputs/budgets.toml",
        "inputs/program.elf",
    }
    lines = [it.split("  ", 1) for it in (folder / "SHA256SUMS").read_text().splitlines()]
    sums = {name: total for total, name in lines}
    assert set(sums) == names - {"SHA256SUMS"}
    for name, total in sums.items():
        assert hashlib.sha256((folder / name).read_bytes()).hexdigest() == total
    assert (folder / "inputs/program.elf").read_bytes() == (TOP / "examples/c/pid.elf").read_bytes()


def test_the_same_input_gives_the_same_bytes(folder: Path, tmp_path: Path) -> None:
    assert evidence(*PID, "-o", tmp_path / "other", seed="7").returncode == 0
    names = [it.relative_to(folder) for it in folder.rglob("*") if it.is_file()]
    for name in names:
        assert (tmp_path / "other" / name).read_bytes() == (folder / name).read_bytes(), name


def test_the_repeated_call_has_each_option_that_changes_the_page(tmp_path: Path) -> None:
    words = (*PID, "--runs", 2000, "--title", "A title of two", "--src", "examples/c")
    assert evidence(*words, "-o", tmp_path / "made").returncode == 0
    text = plain((tmp_path / "made/index.html").read_text())
    (call,) = re.findall(r"tools/fp_evidence .*? -o FOLDER", text)
    assert shlex.split(call)[1:-2] == [
        str(it) for it in (*PID, *words[5:7], *words[9:], *words[7:9])
    ]


def test_each_clause_is_a_piece_of_its_source_and_of_the_page(folder: Path) -> None:
    """All clauses of all promises. Spaces count as one."""
    text = plain((folder / "index.html").read_text())
    number = 0
    for promise in promises_of(read_data()):
        for clause in promise.clauses:
            quoted = " ".join(clause.text.split())
            assert quoted in " ".join((TOP / clause.file).read_text().split()), clause
            assert quoted in text, clause
            number += 1
    assert number >= 10


def test_the_page_says_what_it_is_not_and_that_the_model_proves_nothing(folder: Path) -> None:
    page = (folder / "index.html").read_text()
    text = plain(page)
    assert IS_NOT in text
    assert (
        "The program isn't known to be the proved one" in text
        and "nothing of these answers is proved" in text
    )
    assert "<script" not in page and "http" not in page
    assert (NO_RECORD in text) is (gate_record() is None)


def test_the_page_has_answers_assumptions_and_claims(folder: Path) -> None:
    text = plain((folder / "index.html").read_text())
    for words in (
        "holds T0 a step of the controller 352 (3,520 ns) 400",
        "stated to be assumed, and not checked: no traps",
        "counted in the code: loop 0xf0 step_begin+0x3c",
        "T0: assumes that no trap comes while a trap handler runs",
        "T0 is hard: its bounds hold (budgets here: 1), and its trace is isolated",
        "No thread has a permit",
        "32 of 2,000 bytes",
    ):
        assert words in text, words
    document = json.loads((folder / "evidence.json").read_text())
    assert document["results"][0]["bound"] == 352 and document["program"]["proved"] is False


def test_a_permit_is_named_where_isolation_and_bounds_are(tmp_path: Path) -> None:
    setup = tmp_path / "permit.toml"
    setup.write_text(
        (TOP / "examples/c/pid.toml")
        .read_text()
        .replace("[[thread]]\nid = 2\n", "[[thread]]\nid = 2\npermit = true\n")
    )
    assert "permit = true" in setup.read_text()
    evidence(PID[0], "--setup", setup, *PID[3:], "-o", tmp_path / "made")
    text = plain((tmp_path / "made/index.html").read_text())
    assert "T2: a permit. The bounds hold while no instruction writes slots or modes" in text
    assert "its trace is isolated in a quiet run" in text


def test_a_test_that_failed_is_said_first(folder: Path) -> None:
    made = found_page(folder, {"last": "5 passed, 1 failed", "commit": "x"})
    assert "The last ./test failed: 5 passed, 1 failed" in made
    made = found_page(folder, {"last": "5 passed, 0 failed, 2 skipped", "commit": "x"})
    assert "The last ./test failed" not in made and "is of another commit" in made


def found_page(folder: Path, record: dict[str, object]) -> str:
    """The warnings of a page with another record of ./test."""
    read = json.loads((folder / "evidence.json").read_text())
    origin = SimpleNamespace(commit=read["commit"], is_proved=True, changes=(), program="")
    shown = SimpleNamespace(origin=origin, gate=record)
    return plain(" ".join(warnings(cast(Evidence, shown))))


def test_the_page_quotes_the_clauses_of_the_sources(folder: Path) -> None:
    text = plain((folder / "index.html").read_text())
    crates = Crates(TOP)
    outcome = crates.clause(COMMAND, "flexpret", "outcome")
    fields = ("isolated", "as_run", "visits", "call_visits", "said", "imported")
    for path in (*(f"KnownOutcome.{it}" for it in fields), "Outcome.statuses"):
        field = crates.field(outcome, path)
        source = " ".join((TOP / field.file).read_text().split())
        quoted = " ".join(field.text.split())
        assert quoted in source and quoted in text, path


def test_the_definitions_are_those_of_the_sources(folder: Path) -> None:
    listed = (folder / "definitions.txt").read_text()
    for file, line in re.findall(r"^-- (crates/\S+):(\d+)$", listed, re.M):
        first = (TOP / file).read_text().splitlines()[int(line) - 1]
        assert f"-- {file}:{line}\n{first}\n" in listed
    for name in ("solo", "view", "IsVisit", "IsBound", "issue", "pick"):
        assert re.search(
            rf"^(?:abbrev|unfoldable|pub record)? ?(?:pub )?(?:record )?{name}\b", listed, re.M
        ), name


def test_another_folder_is_left_alone(tmp_path: Path) -> None:
    (tmp_path / "mine").mkdir()
    (tmp_path / "mine/notes.txt").write_text("keep")
    ran = evidence(*PID, "-o", tmp_path / "mine")
    assert ran.returncode == 2 and "isn't evidence of an earlier call" in ran.stderr
    assert [it.name for it in tmp_path.iterdir()] == ["mine"]


def test_a_fault_leaves_the_earlier_folder(folder: Path, tmp_path: Path) -> None:
    before = (folder / "index.html").read_bytes()
    ran = evidence(PID[0], *PID[1:4], tmp_path / "gone.toml", "-o", folder)
    assert ran.returncode == 2 and "gone.toml" in ran.stderr
    assert (folder / "index.html").read_bytes() == before
    ran = evidence("examples/loop/motor.elf", *PID[1:], "-o", folder)
    assert ran.returncode == 2 and "motor.elf" in ran.stderr
    assert (folder / "index.html").read_bytes() == before


def test_a_budget_that_is_over_decides_the_status(tmp_path: Path) -> None:
    tight = tmp_path / "tight.toml"
    tight.write_text(
        (TOP / "examples/c/budgets.toml").read_text().replace("ns = 4000", "ns = 3500")
    )
    ran = evidence(*PID[:4], tight, "-o", tmp_path / "over")
    assert ran.returncode == 1 and ran.stdout.startswith("OVER ")
    assert "OVER T0 a step of the controller" in plain((tmp_path / "over/index.html").read_text())


# ---------------------------------------------------------------- its sentences, against the tree


def test_no_sentence_is_older_than_its_clauses() -> None:
    """If a clause or a definition changes, its sentence in tools/fptools/evidence/evidence.toml is read again."""
    for it in promises_of(read_data()):
        assert (
            it.digest == it.read
        ), f"{it.name} {it.says}: read it again, then write read = {it.digest!r}"


def test_the_promises_are_those_of_the_assumptions() -> None:
    page = re.sub(r"\[([^\]]*)\]\([^)]*\)", r"\1", document("ASSUMPTIONS.md").read_text()).replace(
        "`", ""
    )
    rows = re.findall(r"^\| \*\*([^*]+)\*\* (.*?) \|(.*?)\|$", page, re.M)
    shown = [(name, says, conditions.strip()) for name, says, conditions in rows]
    assert shown == [(it["name"], it["says"], it["if"]) for it in read_data()["promise"]]


def test_the_checks_are_the_numbered_list() -> None:
    page = re.sub("[*`]", "", document("ASSUMPTIONS.md").read_text())
    numbered = re.findall(r"^(\d+)\. (.*)$", page[page.index("## What you must check") :], re.M)
    assert [int(number) for number, _ in numbered] == list(range(1, len(CHECKS) + 1))
    for (_, line), (what, _) in zip(numbered, CHECKS):
        assert line.startswith(what)


def test_what_is_trusted_is_that_of_the_assumptions() -> None:
    plain_page = " ".join(re.sub("[*`]", "", document("ASSUMPTIONS.md").read_text()).split())
    for it in read_data()["trusted"]:
        assert it["what"] in plain_page and it["why"].replace("*", "") in plain_page, it


def test_comparisons_have_a_part_of_the_gate_a_commit_and_their_numbers() -> None:
    parts = {part.name for part in parts_of_gate(1)}
    measured = document("MEASUREMENTS.md").read_text()
    for it in read_data()["comparison"]:
        assert it["part"] in parts
        words = it["repeat"].split()
        file = words[2].replace(".", "/") + ".py" if words[1] == "-m" else words[1]
        assert (TOP / file).is_file()
        if "compared" in it:
            assert (
                f"{it['compared']:,}" in measured
                and it["date"] in measured
                and it["commit"][:7] in measured
            )
    numbers = {it.repeat.split()[-1]: it.number for it in comparisons_of(read_data())}
    for table, words in (
        ("decode.txt", (10_431, 297)),
        ("results.txt", (9_000,)),
        ("gnu.txt", (1_601,)),
    ):
        assert numbers[table] == sum(words)
        assert all(f"{number:,}" in document("TESTING.md").read_text() for number in words)


# ---------------------------------------------------------------- clauses


def test_a_clause_that_is_gone_is_a_fault() -> None:
    crates = Crates(TOP)
    with pytest.raises(NoClause, match="flexpret has 0 clauses gone"):
        crates.clause(COMMAND, "flexpret", "gone")
    with pytest.raises(NoClause, match="flexpret has no field Outcome.gone"):
        crates.field(crates.clause(COMMAND, "flexpret", "outcome"), "Outcome.gone")
    with pytest.raises(NoClause, match="no function nothing"):
        crates.clause(COMMAND, "nothing", "")
    with pytest.raises(NoClause, match="no definition Gone"):
        crates.definition("crates/core_model/specs/View.antt", "Gone")


def test_without_the_repository_there_is_no_evidence(tmp_path: Path) -> None:
    with pytest.raises(NoClause, match="needs the repository"):
        read_data(tmp_path / "evidence.toml")


def test_clauses_have_balanced_braces() -> None:
    head = (
        "fn f()\n    requires { a }\n    ensures one { b { c } d\n        e }\n    ensures { f }\n"
    )
    assert [(kind, name, text) for kind, name, _, text in clauses_of(head)] == [
        ("requires", "", "requires { a }"),
        ("ensures", "one", "ensures one { b { c } d\n    e }"),
        ("ensures", "", "ensures { f }"),
    ]


def small_tree(top: Path, value: str = "1", comment: str = "-- the value") -> Crates:
    """A repository of one crate with a clause and two definitions."""
    for name in ("src", "specs"):
        (top / "crates/one" / name).mkdir(parents=True, exist_ok=True)
    (top / "crates/one/src/kind.rt").write_text(
        "/// A kind.\npub enum Kind {\n    One,\n}\n\nfn hidden() {}\n"
    )
    (top / "crates/one/src/it.rt").write_text(
        "ghost use Rattle.one.specs.Own.{value};\nghost use Rattle.std.specs.Prelude.{None};\n\n"
        "pub fn it() -> u8\n    ensures { result ≡ value }\n{\n    1\n}\n"
    )
    (top / "crates/one/specs/Own.antt").write_text(
        f"use Rattle.one.specs.declared.kind.Kind.TheVariants.{{One}}\n\n{comment}\nabbrev pub"
        " value : ℕ\nvalue = of One\n\n-- of a kind\nunfoldable pub of : Kind → ℕ\nof One ="
        f" {value}\n\nabbrev pub other : ℕ\nother = 2\n"
    )
    return Crates(top)


def test_a_clause_leads_to_definitions_and_types(tmp_path: Path) -> None:
    crates = small_tree(tmp_path)
    clause = crates.clause("crates/one/src/it.rt", "it", "")
    found = crates.closure([clause])
    assert [(it.name, it.line, it.lines) for it in found] == [
        ("value", 3, 3),
        ("of", 7, 3),
        ("Kind", 1, 4),
    ]


def test_a_field_leads_to_its_own_definitions_and_those_of_the_clause(tmp_path: Path) -> None:
    small_tree(tmp_path)
    (tmp_path / "crates/one/specs/Whole.antt").write_text(
        "use Rattle.one.specs.Own.{value, other}\n\n-- all\npub record Whole (n : ℕ) : Type 0"
        " where\n  -- the first\n  pub first : n ≡ value\n  -- the second\n  pub second : n\n"
        "      ≡ other\n\nabbrev pub same : ℕ → ℕ\nsame n = n\n"
    )
    (tmp_path / "crates/one/src/it.rt").write_text(
        "ghost use Rattle.one.specs.Whole.{Whole, same};\n\n"
        "pub fn it() -> u8\n    ensures whole { Whole (same result) }\n{\n    1\n}\n"
    )
    crates = Crates(tmp_path)
    whole = crates.clause("crates/one/src/it.rt", "it", "whole")
    first = crates.field(whole, "Whole.first")
    assert (first.line, first.text) == (5, "-- the first\npub first : n ≡ value\n".rstrip())
    second = crates.field(whole, "Whole.second")
    assert second.text == "-- the second\npub second : n\n    ≡ other"
    assert {it.name for it in crates.closure([first])} == {"same", "value", "of", "Kind"}
    assert {it.name for it in crates.closure([second])} == {"same", "other"}


def test_a_changed_definition_changes_the_digest_and_a_comment_does_not(tmp_path: Path) -> None:
    def of(crates: Crates) -> str:
        clause = crates.clause("crates/one/src/it.rt", "it", "")
        return digest([clause], crates.closure([clause]))

    first = of(small_tree(tmp_path))
    assert of(small_tree(tmp_path, comment="-- another comment")) == first
    assert of(small_tree(tmp_path, value="2")) != first


# ---------------------------------------------------------------- the record of ./test


def test_a_whole_run_leaves_a_record_that_is_read(tmp_path: Path) -> None:
    ci = gate.Ci(gate.Sum(225))
    for line in (
        "rt: bound_calc proved\n",
        "rt: ok; handles allowed: none; must-fail edits: 176 refused; all\n",
    ):
        ci.read(line)
    path = tmp_path / "out/test.json"
    gate.write_record(
        gate.here(), ci, {"tools": gate.Sum(3, 1)}, gate.Sum(228, 1, [(2, "no x")]), path
    )
    record = gate_record(path)
    assert record and record["last"] == "228 passed, 1 failed, 2 skipped"
    assert record["refused"] == 176 and record["parts"] == {"tools": "3 passed, 1 failed"}
    assert "machine" in record["crates"] and len(record["crates"]) > 40
    assert gate_record(tmp_path / "none.json") is None


def test_a_run_during_which_the_checkout_changed_leaves_no_record(tmp_path: Path) -> None:
    path = tmp_path / "out/test.json"
    path.parent.mkdir()
    path.write_text("{}")
    gate.write_record(("another commit", []), gate.Ci(), {}, gate.Sum(1), path)
    assert not path.exists()
