"""The time of a crate's proof: seconds by function and by kind of module. It checks the crate from nothing in a copy,
by one job, and reads the times at which the check kept each module. A function's table of steps (Lts) grows faster
than its length, its locals and the values that it drops, so one long function can take more than all others of its crate; and
the gate proves a crate with edits twice, and a changed function again for each of its edits. It isn't part of the gate."""
import argparse
import re
import subprocess
import sys
import tempfile
from collections import defaultdict
from collections.abc import Iterable, Mapping, Sequence
from dataclasses import dataclass, field
from heapq import nlargest
from pathlib import Path

from dev.mutants.checking import Bench
from dev.mutants.drawing import library_crates

SECONDS = 3600
"""The time limit of a check."""

KIND = re.compile(
    r"\.(Lts|Tie|Proof|Answers|Invariants|Reads|Layout|Code|Kinds|Goals|Statement|Met|Named)(?=[.-]|$)"
)
"""The kinds of modules of a function: its table of steps, the link of the table to the contract, the proof, written answers, and so on."""

SHOWN = 4
"""The number of kinds that are listed for a function."""


def longest(kinds: Mapping[str, float], most: int) -> list[tuple[str, float]]:
    """The kinds that took the most seconds."""
    return nlargest(most, kinds.items(), key=lambda kind: kind[1])


@dataclass
class Spent:
    """Seconds by kind of module, and the bytes of the function's table of steps as it is kept."""

    kinds: dict[str, float] = field(default_factory=lambda: defaultdict(float))
    table: int = 0

    @property
    def seconds(self) -> float:
        return sum(self.kinds.values())

    def row(self, name: str) -> str:
        kinds = ", ".join(
            f"{kind} {took:.1f}" for kind, took in longest(self.kinds, SHOWN) if took >= 0.1
        )
        return f"{self.seconds:8.1f}  {name}  ({kinds}; table {self.table // 1000} KB)"


def kept_modules(folder: Path) -> list[tuple[float, str, int]]:
    """The modules that a check kept: when, which, and how many bytes."""
    files = [(file.stat(), file.name) for file in folder.rglob("*.oantt")]
    return sorted((stat.st_mtime, name, stat.st_size) for stat, name in files)


def owner_of(name: str) -> tuple[str, str]:
    """The function of a kept module, and the module's kind, the last word that is one: a struct may be named as a kind is.
    A module that belongs to no function counts as a file."""
    path = name.removesuffix(".oantt").removesuffix(".decls")
    path = re.sub(r"^Rattle-\w+?(-(proofs|specs))?\.", "", path)
    kinds = list(KIND.finditer(path))
    return (path[: kinds[-1].start()], kinds[-1][1]) if kinds else (path, "file")


def spent(modules: Sequence[tuple[float, str, int]]) -> dict[str, Spent]:
    """The seconds of each function: a module's time is that since the one before was kept."""
    by_function: dict[str, Spent] = defaultdict(Spent)
    for (before, *_), (at, name, size) in zip(modules, modules[1:]):
        function, kind = owner_of(name)
        by_function[function].kinds[kind] += at - before
        if kind == "Lts":
            by_function[function].table = max(by_function[function].table, size)
    return by_function


def check_anew(bench: Bench, crate: str) -> None:
    """Checks a crate from nothing. The empty folder and a text that no other copy has keep `rt` from reusing results."""
    folder = bench.folder / "crates" / crate
    subprocess.run(["rm", "-rf", folder / "out"], check=True)
    (folder / "out/incremental").mkdir(parents=True)
    root = next(file for file in (folder / "src/lib.rt", folder / "src/main.rt") if file.exists())
    root.write_text(f"{root.read_text()}// checked anew\n")
    check = bench.check(crate, "--jobs", "1")
    if not check.is_proved():
        sys.exit(f"{crate} is not proved:\n" + "\n".join(check.said[-20:]))


def tell(crate: str, by_function: dict[str, Spent], most: int) -> None:
    kinds: dict[str, float] = defaultdict(float)
    for one in by_function.values():
        for kind, took in one.kinds.items():
            kinds[kind] += took
    whole = ", ".join(f"{kind} {took:.0f}" for kind, took in longest(kinds, SHOWN + 2))
    print(f"{crate}: {sum(kinds.values()):.0f} seconds ({whole})")
    rows: Iterable[tuple[str, Spent]] = sorted(
        by_function.items(), key=lambda one: -one[1].seconds
    )[:most]
    for name, one in rows:
        print(one.row(name), flush=True)


def main() -> int:
    parser = argparse.ArgumentParser(description=__doc__)
    parser.add_argument("crates", nargs="*", help="the crates (left out: all libraries)")
    parser.add_argument(
        "--most", type=int, default=12, help="how many functions of a crate are shown"
    )
    parser.add_argument("--scratch", help="where the copy is made, and stays for the next call")
    given = parser.parse_args()
    with tempfile.TemporaryDirectory() as folder:
        bench = Bench(Path(given.scratch or folder), SECONDS)
        for crate in given.crates or library_crates():
            check_anew(bench, crate)
            tell(
                crate,
                spent(kept_modules(bench.folder / "crates" / crate / "out/incremental")),
                given.most,
            )
    return 0


if __name__ == "__main__":
    sys.exit(main())
