"""The messages about a command's files if one of them can't be read."""

import os
from pathlib import Path

from fptools.launch.setups import image_of


def state_of(name: str) -> str:
    """Whether a file can be read, in words."""
    path = Path(name)
    try:
        if path.is_dir():
            return "is a folder"
        if not path.exists():
            return missing(path)
        return "is there" if os.access(path, os.R_OK) else "can't be read"
    except OSError as fault:
        return f"can't be read: {fault.strerror}"


def missing(path: Path) -> str:
    """The message that a file isn't there, or the first folder of its path that isn't."""
    for folder in reversed(path.parents):
        if not folder.exists():
            return f"isn't there: there is no folder {folder}"
    return "isn't there"


def lines(files: list[tuple[str, str]]) -> list[str]:
    """A line for each file that can't be read, or for all files if each is there; and a line for an image that is next to its setup."""
    told = [(name, what, state_of(name)) for name, what in files]
    for name, what, _ in list(told):
        image = image_of(Path(name)) if what == "setup" else None
        if image is not None:
            told.append((image, f"image of {name}", state_of(image)))
    bad = [one for one in told if one[2] != "is there"] or told
    found = [
        f"{name}: the {what} {state} (looked for from {Path.cwd()})" for name, what, state in bad
    ]
    for name, what, state in bad:
        beside = Path(files[0][0]).parent / Path(name).name
        if what.startswith("image of") and state != "is there" and beside.exists():
            found.append(
                f"{beside} is there: a setup names its image as it is seen from the folder of the call"
            )
    return found
