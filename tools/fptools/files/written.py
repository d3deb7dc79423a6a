"""Files that are written whole or not at all."""

import os
import tempfile
from pathlib import Path
from typing import Iterable


class NotWritten(OSError):
    """A file can't be written. The text has its name and the reason."""

    def __str__(self) -> str:
        return f"{self.filename} can't be written: {self.strerror}"


def write_whole(name: str | Path, data: bytes | Iterable[bytes]) -> None:
    """Writes a file, at once or by pieces. Where that fails, what was there stays. A link leads to it as before.

    A pipe or a device gets the bytes as they are. What fails is `NotWritten`, or a pipe that nobody reads.
    """
    try:
        _write(Path(os.path.realpath(name)), [data] if isinstance(data, bytes) else data)
    except BrokenPipeError:
        raise
    except OSError as fault:
        raise NotWritten(fault.errno, fault.strerror, str(name)) from None


def refuse_inputs(name: Path, inputs: Iterable[Path | None]) -> None:
    """Refuses to write a file over one that the call reads."""
    for it in inputs:
        if it is not None and os.path.realpath(it) == os.path.realpath(name):
            raise NotWritten(0, "this call reads it: give another name", str(name))


def _write(path: Path, pieces: Iterable[bytes]) -> None:
    """Writes a file by its own name."""
    if path.exists() and not path.is_file():
        with path.open("wb") as file:
            file.writelines(pieces)
        return
    handle, new = tempfile.mkstemp(dir=path.parent, prefix=f".{path.name}.")
    try:
        with os.fdopen(handle, "wb") as file:
            file.writelines(pieces)
        os.chmod(new, path.stat().st_mode & 0o777 if path.exists() else 0o666 & ~_mask())
        os.replace(new, path)
    except BaseException:
        Path(new).unlink(missing_ok=True)
        raise


def _mask() -> int:
    """The process's umask."""
    mask = os.umask(0)
    os.umask(mask)
    return mask
