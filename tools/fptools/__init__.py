"""The common parts of the tools, and readers for scripts: tools/README.md lists them. None of it is proved."""

import importlib.util
import os
import subprocess
import sys
from pathlib import Path
from typing import NoReturn

from fptools.checkout import TOOLS

PACKAGES = {
    "elftools": ("pyelftools", "python3-pyelftools"),
    "jsonschema": ("jsonschema", "python3-jsonschema"),
    "jinja2": ("Jinja2", "python3-jinja2"),
}
"""The modules that the tools use beyond Python itself: the package of each, and Debian's name for it."""

OLDEST = (3, 11)
"""The oldest version of Python that the tools run on."""

NOT_STARTED = int(os.environ.get("FLEXPRET_NOT_STARTED") or 2)
"""The status of a tool whose Python is too old or lacks a package. The scripts set their own one for the tools that they call."""


DEBIAN = "/usr/bin/python3"
"""The Python for which Debian's packages are. It runs a tool whose own Python is too old or lacks a package."""

TRIED = os.environ.pop("FLEXPRET_TRIED_DEBIAN", "")
"""Set if Debian's Python runs this tool in place of another one."""

IS_NEW = "import importlib.util, sys; sys.exit(not (sys.version_info >= (3, 11) and all(map(importlib.util.find_spec, sys.argv[1:]))))"
"""Whether a Python is new enough, and has the modules of its arguments."""


def has(*modules: str) -> bool:
    """Whether these modules are installed."""
    return all(importlib.util.find_spec(module) is not None for module in modules)


def require(*modules: str) -> None:
    """If a module isn't installed, lets Debian's Python run the tool. If that one lacks it too, ends the call with one line and NOT_STARTED. The
    line has all packages of `PACKAGES` that are missing. In a virtual environment pip installs them.
    """
    if has(*modules):
        return
    try_debian(*modules)
    missing = [
        packages
        for module, packages in PACKAGES.items()
        if not has(module) and (module in modules or module != "jinja2")
    ]
    names, debian = ", ".join(name for name, _ in missing), " ".join(
        package for _, package in missing
    )
    pip = f"; here: pip install {names.replace(',', '')}" if sys.prefix != sys.base_prefix else ""
    end(f"lacks {names}{pip}; for /usr/bin/python3 of Debian: apt-get install {debian}")


def try_debian(*modules: str) -> None:
    """Runs this call again by Debian's Python, if a tool was called and that Python has the modules."""
    script = Path(sys.argv[0] if sys.argv else "").resolve()
    is_tool = script.name.startswith("fp_") and script.is_file() and script.parent == TOOLS
    flags = sys.orig_argv[1 : len(sys.orig_argv) - len(sys.argv)]
    if TRIED or not is_tool or not os.access(DEBIAN, os.X_OK):
        return
    if (
        subprocess.run(
            [DEBIAN, *flags, "-c", IS_NEW, *modules], capture_output=True, check=False
        ).returncode
        == 0
    ):
        os.environ["FLEXPRET_TRIED_DEBIAN"] = "1"
        os.execv(DEBIAN, [DEBIAN, *flags, *sys.argv])


def end(fault: str) -> NoReturn:
    """Ends the call with a line about the Python that runs it."""
    version = ".".join(map(str, sys.version_info[:3]))
    print(
        f"{os.path.basename(sys.argv[0])}: {sys.executable} (Python {version}) {fault}",
        file=sys.stderr,
    )
    sys.exit(NOT_STARTED)


if sys.version_info < OLDEST:
    try_debian()
    end("is too old: the tools need Python 3.11 or later")
