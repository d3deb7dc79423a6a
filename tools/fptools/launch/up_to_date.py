"""The sources that a program was built from, and whether they are the current ones.

A stamp is next to each program, `out/CRATE.sources`: the kit's line, the commit, the program's own size, time and checksum, and
the same for each source of its crate and of those below. Checksums are only computed if a size or time differs."""

import contextlib
import hashlib
import os
import shutil
import subprocess
from dataclasses import dataclass
from pathlib import Path

from fptools.code.digraph import search

PARTS = ("src", "specs", "proofs")
"""The folders of a crate that its proof reads."""

SUFFIXES = (".rt", ".antt")
"""The suffixes of sources."""


UNRECORDED = "a kit that no record names"
"""How a stamp names the kit of a program that `rt ci` or `rt run` left."""


@dataclass(frozen=True)
class File:
    """A file in a stamp: its name relative to the top, size in bytes, time of change in nanoseconds, and SHA-256 checksum."""

    name: str
    size: int
    time: int
    sum: str

    def line(self) -> str:
        return f"{self.sum} {self.size} {self.time} {self.name}"


@dataclass(frozen=True)
class Stamp:
    """The record of a built program."""

    kit: str
    commit: str
    uses: tuple[str, ...]
    """The lines of crates.txt for its crate and for those below."""
    program: File
    sources: tuple[File, ...]

    def text(self) -> str:
        head = [
            f"kit {self.kit}",
            f"commit {self.commit}",
            *(f"crate {line}" for line in self.uses),
        ]
        files = [
            f"program {self.program.line()}",
            *(f"source {file.line()}" for file in self.sources),
        ]
        return "\n".join([*head, *files, ""])


def checksum(path: Path) -> str:
    return hashlib.sha256(path.read_bytes()).hexdigest()


def file_at(top: Path, name: str) -> File:
    """A file as it is now."""
    stat = (top / name).stat()
    return File(name, stat.st_size, stat.st_mtime_ns, checksum(top / name))


def read_stamp(path: Path) -> Stamp | None:
    """A stamp, or None if it is missing or incomplete."""
    head: dict[str, list[str]] = {"kit": [], "commit": [], "crate": []}
    files: dict[str, list[File]] = {"program": [], "source": []}
    try:
        for line in path.read_text().splitlines():
            key, _, rest = line.partition(" ")
            if key in head:
                head[key].append(rest)
            elif key in files:
                total, size, time, name = rest.split(" ", 3)
                files[key].append(File(name, int(size), int(time), total))
        (kit,), (commit,), (program,) = head["kit"], head["commit"], files["program"]
    except (OSError, ValueError):
        return None
    return Stamp(kit, commit, tuple(head["crate"]), program, tuple(files["source"]))


@dataclass(frozen=True)
class Checkout:
    """A repository, and the crate of a program."""

    top: Path
    crate: str

    @property
    def out(self) -> Path:
        return self.top / "crates" / self.crate / "out"

    @property
    def program(self) -> Path:
        return self.out / self.crate

    @property
    def stamp(self) -> Path:
        return self.out / f"{self.crate}.sources"

    def libraries(self) -> dict[str, list[str]]:
        """The libraries that each crate of the repository uses, by crates.txt."""
        found = {}
        for line in (self.top / "crates.txt").read_text().splitlines():
            name, colon, libraries = line.partition("#")[0].partition(":")
            if colon:
                found[name.split()[0]] = libraries.split()
        return found

    def crates(self) -> list[str]:
        """The program's crate and those of the repository below it, by name."""
        libraries = self.libraries()
        below = {name: [it for it in uses if it in libraries] for name, uses in libraries.items()}
        return sorted(search([self.crate], lambda it: below.get(it, [])))

    def uses(self) -> tuple[str, ...]:
        libraries = self.libraries()
        return tuple(
            f"{crate}: {' '.join(libraries.get(crate, []))}".strip() for crate in self.crates()
        )

    def folders(self) -> list[str]:
        """The folders of the sources, also those that don't exist."""
        return [f"crates/{crate}/{part}" for crate in self.crates() for part in PARTS]

    def names(self) -> list[str]:
        """The names of the sources, relative to the top."""
        found = []
        for folder in self.folders():
            for at, _, files in os.walk(self.top / folder):
                found += [f"{at}/{name}" for name in files if name.endswith(SUFFIXES)]
        return sorted(os.path.relpath(name, self.top) for name in found)

    def watched(self) -> list[str]:
        """The program, the list of crates, the sources and their folders. One of them changes if a source is changed, removed or added."""
        found = [f"crates/{self.crate}/out/{self.crate}", "crates.txt"]
        for folder in self.folders():
            # A folder that doesn't exist would be made in the nearest one above it.
            found += [] if (self.top / folder).is_dir() else [self.nearest(folder)]
            found += [os.path.relpath(at, self.top) for at, _, _ in os.walk(self.top / folder)]
        return [*found, *self.names()]

    def nearest(self, folder: str) -> str:
        """The nearest existing folder above a missing one, relative to the top."""
        above = Path(folder).parent
        while not (self.top / above).is_dir():
            above = above.parent
        return str(above)

    # ------------------------------------------------------------ stamps

    def listed(self) -> tuple[File, ...]:
        """The current sources, with their checksums."""
        return tuple(file_at(self.top, name) for name in self.names())

    def write_stamp(self, kit: str, sources: tuple[File, ...]) -> None:
        """Writes the record of the program that is there now: the kit and the sources that it was built from."""
        program = file_at(self.top, str(self.program.relative_to(self.top)))
        stamp = Stamp(kit, commit_of(self.top), self.uses(), program, sources)
        new = self.stamp.with_suffix(".new")
        new.write_text(stamp.text())
        new.replace(self.stamp)

    def is_built(self) -> bool:
        """Whether the program exists and was built from the current sources, by its stamp or by the files that `rt` left."""
        if not os.access(self.program, os.X_OK):
            return False
        watched = self.watched()
        times = "".join(map(self.time_of, watched))
        if not self.has_these_sources():
            return False
        # If the folder can't be written, each call reads the stamp.
        with contextlib.suppress(OSError):
            self.out.joinpath(f"{self.crate}.names").write_text(
                "".join(f"{name}\0" for name in watched)
            )
            self.out.joinpath(f"{self.crate}.times").write_text(times)
        return True

    def time_of(self, name: str) -> str:
        """The size and time of a file, in the form of find for '%s %T@\\n'."""
        stat = (self.top / name).stat()
        return f"{stat.st_size} {stat.st_mtime_ns // 10**9}.{stat.st_mtime_ns % 10**9:09d}0\n"

    def has_these_sources(self) -> bool:
        """Whether the program was built from the current sources."""
        stamp = read_stamp(self.stamp)
        if stamp is None or not self.is_same(stamp.program):
            return self.adopt()
        if stamp.uses != self.uses() or [file.name for file in stamp.sources] != self.names():
            return False
        return all(map(self.is_same, stamp.sources))

    def is_same(self, file: File) -> bool:
        """Whether a file has the content that its stamp records."""
        try:
            stat = (self.top / file.name).stat()
        except OSError:
            return False
        if stat.st_size != file.size:
            return False
        return stat.st_mtime_ns == file.time or checksum(self.top / file.name) == file.sum

    # ------------------------------------------------------------ what rt left

    def adopt(self) -> bool:
        """Whether `rt ci` or `rt run` built the program from the current sources. If so, writes the stamp that is missing.

        Both leave a file that is older than the end of their work and newer than its start. No source has changed since if no
        inode has: that time can't be set back, unlike those of a checkout or a copy. The kit of that build is recorded nowhere,
        and another one may have been installed since. So the stamp has UNRECORDED, and the kit that is installed at this call.
        """
        begun = self.begun_by_rt()
        if begun is None or self.last_change() >= begun:
            return False
        with contextlib.suppress(OSError):
            self.write_stamp(f"{UNRECORDED} (found beside {kit_line()})", self.listed())
        return True

    def begun_by_rt(self) -> int | None:
        """A time in nanoseconds at which the sources were those of the program, or None if `rt` didn't leave it."""
        built = self.program.stat().st_mtime_ns
        try:
            # `rt run` writes this after the build, if no source changed during it.
            checked = (self.out / f"{self.crate}.stamp").stat().st_mtime_ns
            if built <= checked:
                return checked
        except OSError:
            pass
        try:
            # `rt ci` opens this at its start, and removes all older programs.
            opened = (git_folder(self.top) / "rt-ci.lock").stat().st_mtime_ns
        except OSError:
            return None
        return opened if opened <= built else None

    def last_change(self) -> int:
        """The time of the last change of a source, a folder of sources or the list of crates, by their inodes, in nanoseconds."""
        times = [(self.top / "crates.txt").stat().st_ctime_ns]
        for folder in self.folders():
            for at, _, files in os.walk(self.top / folder):
                times.append(os.stat(at).st_ctime_ns)
                times += [os.stat(f"{at}/{name}").st_ctime_ns for name in files]
        return max(times)


def git_folder(top: Path) -> Path:
    """The folder of git's state of a checkout."""
    git = top / ".git"
    if git.is_file():
        return Path(top, git.read_text().removeprefix("gitdir:").strip())
    return git


def said_by(words: list[str], top: Path) -> str:
    """The first line of a command's output, or nothing if it fails."""
    try:
        ran = subprocess.run(words, cwd=top, capture_output=True, text=True, check=False)
    except OSError:
        return ""
    return ran.stdout.strip().partition("\n")[0] if ran.returncode == 0 else ""


def commit_of(top: Path) -> str:
    """The commit of a checkout, with a remark if its crates have changes."""
    commit = said_by(["git", "rev-parse", "--short=12", "HEAD"], top)
    changes = said_by(
        ["git", "--no-optional-locks", "status", "--porcelain", "--", "crates", "crates.txt"], top
    )
    return (commit or "unknown") + (" with changes" if commit and changes else "")


def changes_of(top: Path) -> tuple[str, ...]:
    """The tracked files of a checkout that differ from its commit."""
    words = ["git", "--no-optional-locks", "status", "--porcelain", "--untracked-files=no"]
    try:
        ran = subprocess.run(words, cwd=top, capture_output=True, text=True, check=False)
    except OSError:
        return ()
    return (
        tuple(sorted(line[3:] for line in ran.stdout.splitlines())) if ran.returncode == 0 else ()
    )


def kit_line() -> str:
    """The kit's line, as `rt version` prints it."""
    rt = shutil.which("rt")
    try:
        return (Path(rt or "").resolve().parent.parent / "KIT-ID").read_text().strip()
    except OSError:
        return said_by(["rt", "version"], Path("/")) or "unknown"
