"""The list of public names: it is that of the sources, and a change of a name, a field or a number shows."""
from __future__ import annotations

from pathlib import Path

import pytest


from dev.crates import api

SOURCE = """
/// A place.
#[derive(Clone, Copy)]
pub struct Place {
    /// The table.
    pub table: u8,
    row: u32,
}

/// Why not.
pub enum No {
    /// Too long.
    TooLong = 1,
    Fault { code: u8, place: Place },
}

impl Place {
    ghost use Rattle.std.specs.Prelude.{◌≡◌};

    /// The row.
    pub fn row(&self, thread: u8) -> Option<u32>
        requires { thread < 8 }
        ensures { result ≡ None }
    {
        None
    }

    fn hidden(&self) {}
}

/// A device.
pub trait Port: Drop {
    ghost word_at: { Self → ℕ };

    fn read(&mut self, at: u64) -> u32
        ensures value { result ≡ word_at self.old };
}

pub(crate) fn inside() {}

const ROUTINES: usize = 64;
pub const MOST: usize = ROUTINES * 18;
"""


def test_the_list_is_that_of_the_sources(capsys: pytest.CaptureFixture[str]) -> None:
    assert api.check(api.whole()) == 0, capsys.readouterr().out


def test_what_is_public_stands_in_the_list() -> None:
    module = api.Reader(SOURCE).read()
    assert module.items == {
        "Place": ["struct Place: derive(Clone, Copy)", "    table: u8", "    .."],
        "No": ["enum No", "    TooLong = 1", "    Fault { code: u8, place: Place }"],
        "Port": [
            "trait Port: Drop",
            "    ghost word_at: { Self → ℕ }",
            "    fn read(&mut self, at: u64) -> u32",
        ],
        "MOST": ["const MOST: usize = 64 * 18"],
    }
    assert module.impls == {
        "Place": [["impl Place", "    fn row(&self, thread: u8) -> Option<u32>"]]
    }


def test_a_changed_name_is_told(capsys: pytest.CaptureFixture[str]) -> None:
    assert api.check(api.whole().replace("fn due(", "fn is_due(")) == 1
    told = capsys.readouterr()
    assert "-            fn due(&self, thread: u8, now: u64) -> bool" in told.out
    assert "run dev/crates/api.py" in told.err


def test_a_file_that_is_not_there_differs(monkeypatch: pytest.MonkeyPatch, tmp_path: Path) -> None:
    monkeypatch.setattr(api, "LIST", tmp_path / "API.txt")
    assert api.check(api.whole()) == 1
