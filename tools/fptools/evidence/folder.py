"""The folder of evidence: its files, and how it is written in place of an earlier one."""

import hashlib
import json
import shutil
import tempfile
from pathlib import Path

from fptools.budget.reports import data_of
from fptools.evidence.evidence import Evidence
from fptools.evidence.page import html_of
from fptools.stack.reports import stack_fields
from fptools.untyped import Values

MARK = "evidence.json"


def look_at_output(folder: Path) -> None:
    """Ends early where the folder can't be written, or is another one."""
    if folder.is_dir() and any(folder.iterdir()) and not (folder / MARK).is_file():
        raise ValueError(
            f"{folder} is there, and isn't evidence of an earlier call: name another folder"
        )
    if folder.exists() and not folder.is_dir():
        raise ValueError(f"{folder} is no folder")


def as_json(evidence: Evidence) -> bytes:
    """The answers and their origin."""
    origin = evidence.origin
    document: Values = {
        "commit": origin.commit,
        "changes": list(origin.changes),
        "kit": origin.kit,
        "program": {
            "what": origin.program,
            "sha256": origin.program_sum,
            "proved": origin.is_proved,
        },
        "sources": {"number": len(origin.sources), "sha256": origin.sources_sum},
        "inputs": {
            it.what: {"name": it.name, "copy": it.copy, "sha256": it.sum} for it in evidence.inputs
        },
        "results": [data_of(it) for it in evidence.results],
        "stacks": [stack_fields(it) for it in evidence.stacks],
        "promises": [
            {
                "name": it.name.rstrip("."),
                "clauses": [f"{one.file}:{one.line} {one.name}".strip() for one in it.clauses],
                "definitions": len(it.definitions),
                "lines": it.lines,
            }
            for it in evidence.promises
        ],
        "test": evidence.gate,
    }
    return (json.dumps(document, indent=2, ensure_ascii=False) + "\n").encode()


def definitions_of(evidence: Evidence) -> bytes:
    """All definitions of all promises, by their places."""
    every = sorted(
        {it for one in evidence.promises for it in one.definitions},
        key=lambda it: (it.file, it.line),
    )
    return "\n".join(f"-- {it.file}:{it.line}\n{it.text}" for it in every).encode()


def files_of(evidence: Evidence, title: str) -> dict[str, bytes]:
    """The files of the folder by their names."""
    files = {
        "index.html": html_of(evidence, title),
        MARK: as_json(evidence),
        "definitions.txt": definitions_of(evidence),
        "sources.sha256": evidence.origin.sources_text.encode(),
        **{it.copy: it.data for it in evidence.inputs},
    }
    sums = [f"{hashlib.sha256(data).hexdigest()}  {name}\n" for name, data in sorted(files.items())]
    return {**files, "SHA256SUMS": "".join(sums).encode()}


def write_folder(folder: Path, files: dict[str, bytes]) -> None:
    """Writes a folder whole, in place of an earlier one."""
    folder.parent.mkdir(parents=True, exist_ok=True)
    with tempfile.TemporaryDirectory(prefix=f".{folder.name}.", dir=folder.parent) as room:
        new = Path(room) / "new"
        for name, data in files.items():
            (new / name).parent.mkdir(parents=True, exist_ok=True)
            (new / name).write_bytes(data)
        if folder.exists():
            shutil.move(folder, Path(room) / "old")
        shutil.move(new, folder)
