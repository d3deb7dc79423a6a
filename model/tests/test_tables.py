"""That the forms of tables are read and written alike, and that the stored ones of drawn worlds are those of their
seeds."""
from __future__ import annotations

from model.tables.forms import escaped, expanded, repeated, table, unescaped, words_in_runs
from model.tables.world_cases import digits, setting_case, shortened, world_case


def test_forms() -> None:
    data = bytes(range(256))
    assert unescaped(escaped(data)) == data
    assert expanded(digits(bytes(8) + b"abcd")) == bytes(8) + b"abcd"
    assert repeated(words_in_runs(bytes(12) + b"abcd").strip()) == bytes(12) + b"abcd"
    assert shortened("T0 x08" + " 00000000" * 8) == "T0 x08*"


def test_stored_worlds_are_those_of_their_seeds() -> None:
    """Except those with devices of all kinds, whose devices were drawn by other means."""
    stored = table("worlds.txt").read_text().split("\n=== ")[1:]
    for seed in (0, 2, 3, 5, 6, 11):
        assert "\n".join(world_case(seed)).removeprefix("=== ") == stored[seed]


def test_stored_settings_are_those_of_their_seeds() -> None:
    stored = {
        case.partition("\n")[0]: case
        for case in table("settings.txt").read_text().split("\n=== ")[1:]
    }
    for seed in list(stored)[:4]:
        assert "\n".join(setting_case(int(seed))).removeprefix("=== ") == stored[seed]
