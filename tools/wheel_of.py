"""Makes a wheel of the packages, as pip asks for one (PEP 517). It needs Python alone, so that `pip install .` needs no network."""

import base64
import hashlib
import tomllib
import zipfile
from collections.abc import Iterator, Mapping
from pathlib import Path
from typing import Any

TOP = Path(__file__).resolve().parents[1]
TAG = "py3-none-any"
NOT_SHIPPED = {"tests", "testing", "__pycache__", "drawn", "tables"}
"""Folders of the packages that a wheel leaves out."""

SHARED = ("Makefile", "flexpret.h", "flexpret.ld", "start.s")
"""The files of examples/c that fp_new copies."""


def files() -> Iterator[tuple[str, bytes]]:
    """The files of a wheel: their names in it, and their content."""
    for folder in (TOP / "tools/fptools", TOP / "model"):
        for path in sorted(folder.rglob("*")):
            place = path.relative_to(folder.parent)
            is_source = path.suffix not in (".pyc", ".md", ".toml") and path.is_file()
            if is_source and NOT_SHIPPED.isdisjoint(place.parts):
                yield str(place), path.read_bytes()
    for name in SHARED:
        yield f"fptools/new/shared/{name}", (TOP / "examples/c" / name).read_bytes()


def metadata(project: Mapping[str, Any]) -> str:
    lines = [
        "Metadata-Version: 2.1",
        f"Name: {project['name']}",
        f"Version: {project['version']}",
        f"Summary: {project['description']}",
        f"Requires-Python: {project['requires-python']}",
    ]
    for extra, packages in project["optional-dependencies"].items():
        lines += [f"Provides-Extra: {extra}"]
        lines += [f'Requires-Dist: {package}; extra == "{extra}"' for package in packages]
    return "\n".join([*lines, ""])


def build_wheel(
    wheel_directory: str, config_settings: object = None, metadata_directory: object = None
) -> str:
    """Writes the wheel to a folder, and returns its name."""
    project = tomllib.loads((TOP / "pyproject.toml").read_text())["project"]
    name = f"{project['name']}-{project['version']}"
    scripts = [f"{command} = {function}" for command, function in project["scripts"].items()]
    own = {
        "METADATA": metadata(project),
        "WHEEL": f"Wheel-Version: 1.0\nGenerator: wheel_of\nRoot-Is-Purelib: true\nTag: {TAG}\n",
        "entry_points.txt": "\n".join(["[console_scripts]", *scripts, ""]),
    }
    rows = []
    with zipfile.ZipFile(
        Path(wheel_directory) / f"{name}-{TAG}.whl", "w", zipfile.ZIP_DEFLATED
    ) as wheel:
        for place, data in [
            *files(),
            *((f"{name}.dist-info/{it}", text.encode()) for it, text in own.items()),
        ]:
            wheel.writestr(place, data)
            total = base64.urlsafe_b64encode(hashlib.sha256(data).digest()).rstrip(b"=").decode()
            rows.append(f"{place},sha256={total},{len(data)}\n")
        wheel.writestr(f"{name}.dist-info/RECORD", "".join([*rows, f"{name}.dist-info/RECORD,,\n"]))
    return f"{name}-{TAG}.whl"
