"""What exports.py finds: definitions that a caller of a crate can't name."""
from __future__ import annotations

import subprocess
import sys
from pathlib import Path

import pytest
from fptools.testing.common import TOP

LOW = {
    "src/lib.rt": "pub fn zero() -> u8\n    ensures { result ≡ 0 }\n{\n    0\n}\n",
    "specs/Lib.antt": "pub mod Limit\n",
    "specs/Limit.antt": "abbrev pub limit : ℕ\nlimit = 7\n",
}
ROOT = "mod part;\n\npub use part::{Part, small};\n"
PART = """\
ghost use Rattle.std.specs.Prelude.{{◌≤◌}};
ghost use Rattle.low.specs.Limit.{{limit}};

{item}
"""
SMALL = "pub fn small() -> u8\n    ensures few { result ≤ limit }\n{\n    0\n}"


def tree(
    top: Path, item: str, lib: str = "", specs: dict[str, str] | None = None, name: str = "mid"
) -> Path:
    """A repository of two crates, of which the upper one has an item in a private module that its root names."""
    crates = {
        "low": LOW,
        name: {
            "src/lib.rt": ROOT,
            "src/part.rt": PART.format(item=item),
            "specs/Lib.antt": lib,
            **(specs or {}),
        },
    }
    (top / "crates.txt").write_text(f"# the crates\nlow:\n{name}: low\n")
    for crate, files in crates.items():
        for file, text in files.items():
            place = top / "crates" / crate / file
            place.parent.mkdir(parents=True, exist_ok=True)
            place.write_text(text)
    return top


def ran(top: Path, *arguments: str) -> subprocess.CompletedProcess[str]:
    call = [sys.executable, "-m", "dev.crates.exports", "--top", str(top), *arguments]
    return subprocess.run(call, cwd=TOP, capture_output=True, text=True, check=False)


def test_names_the_line_that_is_missing(tmp_path: Path) -> None:
    found = ran(tree(tmp_path, SMALL))
    assert found.returncode == 1
    assert found.stdout.splitlines()[0] == (
        "crates/mid/src/part.rt:5: the contract of `small` cites `limit`:"
        " add `pub use Rattle.low.specs.Limit` to crates/mid/specs/Lib.antt"
    )


@pytest.mark.parametrize(
    "lib", ["pub use Rattle.low.specs.Limit\n", "pub use Rattle.low.specs.Limit as Most\n"]
)
def test_a_definition_that_is_handed_on_is_not_missing(tmp_path: Path, lib: str) -> None:
    assert ran(tree(tmp_path, SMALL, lib)).returncode == 0


@pytest.mark.parametrize(
    "item",
    [
        "fn small() -> u8\n    ensures few { result ≤ limit }\n{\n    0\n}",
        "pub(crate) fn small() -> u8\n    ensures few { result ≤ limit }\n{\n    0\n}",
        "pub fn other() -> u8\n    ensures few { result ≤ limit }\n{\n    0\n}",
        "pub fn small() -> u8\n    ensures few { result ≤ 7 }\n{\n    let limit = 0;\n    limit\n}",
        "impl Hidden {\n    pub fn few(self) -> u8\n        ensures few { result ≤ limit }\n    {\n        0\n    }\n}",
    ],
    ids=[
        "private",
        "of the crate",
        "not named by the root",
        "in a body",
        "of a type that isn't named",
    ],
)
def test_what_no_caller_reaches_may_cite_anything(tmp_path: Path, item: str) -> None:
    assert ran(tree(tmp_path, item)).returncode == 0


@pytest.mark.parametrize(
    "item",
    [
        "impl Part {\n    pub fn few(self) -> u8\n        ensures few { result ≤ limit }\n    {\n        0\n    }\n}",
        "impl Clone for Part {\n    fn few(&self) -> u8\n        ensures few { result ≤ limit }\n    {\n        0\n    }\n}",
        "pub trait Part {\n    fn few(&self) -> u8\n        ensures few { result ≤ limit };\n}",
    ],
    ids=["a method", "a method of a trait for a type", "a trait's method"],
)
def test_methods_of_a_public_type_count(tmp_path: Path, item: str) -> None:
    assert ran(tree(tmp_path, item)).returncode == 1


def test_a_door_hands_on_what_its_definitions_use(tmp_path: Path) -> None:
    specs = {
        "specs/Own.antt": "use Rattle.low.specs.Limit.{limit}\nabbrev pub twice : ℕ\ntwice = limit + limit\n"
    }
    found = ran(tree(tmp_path, "pub struct Part;", "pub mod Own\n", specs, "flexpret_top"))
    assert found.returncode == 1
    assert "crates/flexpret_top/specs/Own.antt:1: a definition cites `limit`" in found.stdout
    assert (
        ran(
            tree(
                tmp_path,
                "pub struct Part;",
                "pub mod Own\npub use Rattle.low.specs.Limit\n",
                specs,
                "flexpret_top",
            )
        ).returncode
        == 0
    )


def test_names_that_stand_one_on_a_line_are_read(tmp_path: Path) -> None:
    names = (
        "use Rattle.low.specs.Limit.{\n  limit,\n  least,\n}\nabbrev pub twice : ℕ\ntwice = limit\n"
    )
    specs = {"specs/Own.antt": f"-- twice the limit\n{names}"}
    found = ran(tree(tmp_path, "pub struct Part;", "pub mod Own\n", specs, "flexpret_top"))
    assert found.returncode == 1
    told = "crates/flexpret_top/specs/Own.antt:2: a definition cites `limit, least`"
    assert told in found.stdout


def test_a_missing_tree_is_an_error(tmp_path: Path) -> None:
    found = ran(tmp_path / "none")
    assert found.returncode == 2
    assert "crates.txt" in found.stderr


def test_every_crate_hands_on_what_its_contracts_cite() -> None:
    found = ran(TOP)
    assert found.returncode == 0, found.stdout
