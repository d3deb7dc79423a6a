"""A separate folder for each crate that is proved.

`rt` locks the folders of a crate and of all crates that it uses, so two proofs in one checkout would wait for each other."""

import contextlib
import fcntl
import os
import shutil
import sys
from pathlib import Path
from typing import Iterator

from fptools.launch.up_to_date import PARTS, Checkout

KEPT = ("rlib", "incremental")
"""The folders of a crate's out that `rt lib` makes: the library, and the answers that a later proof reuses."""


@contextlib.contextmanager
def locked(place: Path, waits: str = "") -> Iterator[bool]:
    """Locks a file, or a crate's folder against `rt`. If another call has it, prints a line and waits for its end.
    The value is whether it had to wait."""
    held, waited = os.open(place, os.O_RDONLY), False
    try:
        with contextlib.suppress(OSError):  # a file system without locks
            try:
                fcntl.flock(held, fcntl.LOCK_EX | fcntl.LOCK_NB)
            except BlockingIOError:
                waited = True
                if waits:
                    print(waits, file=sys.stderr, flush=True)
                fcntl.flock(held, fcntl.LOCK_EX)
        yield waited
    finally:
        os.close(held)


def link(source: str, target: str) -> None:
    """Makes a hard link to a file, or copies it if that isn't possible."""
    try:
        os.link(source, target)
    except OSError:
        shutil.copy2(source, target)


def fill(tree: Path, checkout: Checkout, crate: str) -> None:
    """Fills an empty folder with a crate and those that it uses: copies of the sources, and the libraries that are built."""
    own = Checkout(checkout.top, crate)
    for one in own.crates():
        here, there = checkout.top / "crates" / one, tree / "crates" / one
        there.mkdir(parents=True)
        for part in PARTS:
            if (here / part).is_dir():
                shutil.copytree(here / part, there / part)
        with locked(here):
            if (here / "out/rlib").is_dir():
                shutil.copytree(here / "out/rlib", there / "out/rlib", copy_function=link)
    (tree / "crates.txt").write_text("".join(f"{line}\n" for line in own.uses()))


def move(source: Path, target: Path) -> None:
    """Moves the folders in KEPT from one folder of a crate to another, and replaces those there."""
    for part in KEPT:
        if (source / "out" / part).is_dir():
            (target / "out").mkdir(exist_ok=True)
            shutil.rmtree(target / "out" / part, ignore_errors=True)
            os.replace(source / "out" / part, target / "out" / part)


@contextlib.contextmanager
def tree_of(checkout: Checkout, crate: str) -> Iterator[Path]:
    """The top of a folder for the proof of a crate. The results of the proof, complete or interrupted, are moved into the checkout."""
    tree = checkout.out / "trees" / crate
    here, there = checkout.top / "crates" / crate, tree / "crates" / crate
    shutil.rmtree(tree, ignore_errors=True)
    try:
        fill(tree, checkout, crate)
        with locked(here):
            move(here, there)
        yield tree
    finally:
        if there.is_dir():
            with locked(here):
                move(there, here)
        shutil.rmtree(tree, ignore_errors=True)
