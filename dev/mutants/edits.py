"""Tries the must-fail edits that the gate leaves out: dev/mutants/edits/CRATE/NAME.edit.

Each is a wrong body that the prover must refuse. They have the form of those in crates/CRATE/must-fail, which the gate tries.
The script copies the sources, puts these edits in the place of the gate's, and calls `rt must-fail` for one crate after the
other. The log has all that `rt` writes. The status is 0 if each edit is refused, 1 if one isn't, and 2 for a wrong argument.
"""

import argparse
import re
import shutil
import subprocess
import sys
import tempfile
import time
from collections import Counter
from collections.abc import Iterable, Sequence
from dataclasses import dataclass
from pathlib import Path

from dev.program import TOP
from fptools.launch.up_to_date import Checkout

MOVED = TOP / "dev/mutants/edits"
"""The edits that the gate leaves out, in a folder for each crate."""

PROVED_PARTS = ("src", "specs", "proofs")
"""The folders of a crate that its proof reads."""

RESULT = re.compile(
    r"must-fail (?P<edit>\S+): (?P<verdict>refused, as it must be|NOT REFUSED|BAD EDIT|NOT TRIED)"
)
"""A line of `rt must-fail` about one edit."""

REFUSED = "refused, as it must be"
"""The verdict that each edit must get."""


@dataclass(frozen=True)
class Pair:
    """One change of an edit: a text that is once in a file of the crate, and the text that replaces it."""

    file: str
    old: str
    new: str


def pairs_of(edit: Path) -> list[Pair]:
    """The changes of an edit, in their order."""
    file, old, pairs = "", "", []
    for line in edit.read_text().splitlines():
        if line.startswith("file: "):
            file = line.removeprefix("file: ").strip()
        elif line.startswith("old: "):
            old = line.removeprefix("old: ")
        elif line.startswith("new:"):
            pairs.append(Pair(file, old, line.removeprefix("new:").removeprefix(" ")))
    return pairs


def fault_of(edit: Path, crate: Path) -> str | None:
    """Why an edit can't be applied to its crate's folder, or nothing."""
    pairs = pairs_of(edit)
    if not pairs:
        return "it has no 'old:' and 'new:' pair"
    texts: dict[str, str] = {}
    for pair in pairs:
        if pair.file not in texts and not (crate / pair.file).is_file():
            return f"{pair.file} is not in the crate"
        text = texts.get(pair.file) or (crate / pair.file).read_text()
        found = text.count(pair.old)
        if found != 1:
            return f"the text of 'old: {pair.old}' is {found} times in {pair.file}, and not once"
        texts[pair.file] = text.replace(pair.old, pair.new)
    return None


def edits_of(crate: str) -> list[Path]:
    """A crate's edits that the gate leaves out."""
    return sorted((MOVED / crate).glob("*.edit"))


def faults(crates: Iterable[str]) -> list[str]:
    """A line for each edit of these crates that can't be applied."""
    found = []
    for crate in crates:
        for edit in edits_of(crate):
            fault = fault_of(edit, TOP / "crates" / crate)
            if fault:
                found.append(f"{edit.relative_to(TOP)}: {fault}")
    return found


def changed_crates(commit: str) -> set[str]:
    """The crates with a change since a commit in the sources of their proofs, or in their edits of dev/mutants/edits."""
    git = ["git", "-C", str(TOP)]
    tracked = subprocess.run(
        [*git, "diff", "--name-only", commit, "--", "crates", "dev/mutants/edits"],
        check=True,
        capture_output=True,
        text=True,
    )
    others = subprocess.run(
        [*git, "ls-files", "--others", "--exclude-standard", "--", "crates", "dev/mutants/edits"],
        check=True,
        capture_output=True,
        text=True,
    )
    crates = set()
    for name in (tracked.stdout + others.stdout).splitlines():
        parts = Path(name).parts
        if parts[0] == "dev":
            crates.add(parts[3])
        elif len(parts) > 3 and parts[2] in PROVED_PARTS:
            crates.add(parts[1])
    return crates


def libraries_below(crates: Iterable[str]) -> set[str]:
    """These crates and the crates of this repository that they use."""
    known = Checkout(TOP, "").libraries()
    return {one for it in crates if it in known for one in Checkout(TOP, it).crates()}


def copy_sources(folder: Path, crates: Sequence[str]) -> None:
    """Copies the current sources, with the results that checks kept for these crates and those below, and puts the moved edits in place."""
    listed = subprocess.run(
        [
            "git",
            "ls-files",
            "-z",
            "--cached",
            "--others",
            "--exclude-standard",
            "crates",
            "crates.txt",
            "HANDLES",
        ],
        cwd=TOP,
        check=True,
        stdout=subprocess.PIPE,
    )
    for name in filter(None, listed.stdout.decode().split("\0")):
        if "/must-fail/" not in name and (TOP / name).is_file():
            (folder / name).parent.mkdir(parents=True, exist_ok=True)
            shutil.copy2(TOP / name, folder / name)
    for crate in libraries_below(crates):
        if (TOP / "crates" / crate / "out").is_dir():
            subprocess.run(
                ["cp", "-a", TOP / "crates" / crate / "out", folder / "crates" / crate], check=True
            )
    for crate in crates:
        shutil.copytree(MOVED / crate, folder / "crates" / crate / "must-fail")


def try_crate(folder: Path, crate: str, log: Path) -> dict[str, str]:
    """Tries a crate's edits in the copy, appends the output of `rt` to the log, and returns the verdict of each edit."""
    ran = subprocess.run(
        ["rt", "must-fail", crate],
        cwd=folder,
        stdin=subprocess.DEVNULL,
        stdout=subprocess.PIPE,
        stderr=subprocess.STDOUT,
        text=True,
        errors="replace",
        check=False,
    )
    with log.open("a") as out:
        out.write(ran.stdout)
    verdicts = {
        found["edit"]: found["verdict"]
        for found in map(RESULT.search, ran.stdout.splitlines())
        if found
    }
    for edit in edits_of(crate):
        verdicts.setdefault(f"{crate}/{edit.name}", "NOT TRIED")
    return verdicts


def try_all(crates: Sequence[str], folder: Path, log: Path) -> int:
    """Tries the edits of these crates, and prints a line for each crate, each edit that isn't refused, and the sum."""
    copy_sources(folder, crates)
    counts: Counter[str] = Counter()
    for number, crate in enumerate(crates, 1):
        begun = time.monotonic()
        verdicts = try_crate(folder, crate, log)
        counts.update(verdicts.values())
        for edit, verdict in verdicts.items():
            if verdict != REFUSED:
                print(f"{edit}: {verdict}", flush=True)
        refused = sum(verdict == REFUSED for verdict in verdicts.values())
        print(
            f"{number} of {len(crates)}: {crate}: {refused} of {len(verdicts)} refused, {time.monotonic() - begun:.0f} seconds",
            flush=True,
        )
    failed = counts.total() - counts[REFUSED]
    print(f"{counts[REFUSED]} passed, {failed} failed")
    return 1 if failed else 0


def arguments() -> argparse.Namespace:
    parser = argparse.ArgumentParser(
        description=__doc__, formatter_class=argparse.RawDescriptionHelpFormatter
    )
    parser.add_argument(
        "crate",
        nargs="*",
        metavar="CRATE",
        help="a crate to try (without one: all that have edits here)",
    )
    parser.add_argument(
        "--since", metavar="COMMIT", help="only the crates that changed since this commit"
    )
    parser.add_argument(
        "--log",
        type=Path,
        default=Path("edits.log"),
        metavar="FILE",
        help="gets all that rt writes (default: edits.log)",
    )
    parser.add_argument(
        "--applies",
        action="store_true",
        help="only checks that each edit can be applied, and proves nothing",
    )
    return parser.parse_args()


def main() -> int:
    options = arguments()
    known = sorted(folder.name for folder in MOVED.iterdir() if folder.is_dir())
    for crate in options.crate:
        if crate not in known:
            print(
                f'dev/mutants/edits.py: {crate}: no folder of dev/mutants/edits has this name; known are {", ".join(known)}',
                file=sys.stderr,
            )
            return 2
    crates = [crate for crate in known if not options.crate or crate in options.crate]
    if options.since:
        changed = changed_crates(options.since)
        crates = [crate for crate in crates if crate in changed]
    found = faults(crates)
    print("\n".join(found), end="\n" if found else "")
    if found or options.applies:
        print(
            f"{sum(len(edits_of(crate)) for crate in crates) - len(found)} edits can be applied, {len(found)} cannot"
        )
        return 1 if found else 0
    if not crates:
        print("no crate with edits changed")
        return 0
    options.log.write_text("")
    with tempfile.TemporaryDirectory(prefix="edits-") as folder:
        return try_all(crates, Path(folder), options.log)


if __name__ == "__main__":
    sys.exit(main())
