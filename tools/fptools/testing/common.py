"""What the tests share: the folder of the repository, the program, and runs of a tool."""

import os
import shlex
import shutil
import signal
import subprocess
import sys
import tempfile
from pathlib import Path

import pytest

from fptools.checkout import TOOLS as TOOLS
from fptools.checkout import TOP as TOP

BUILT = TOP / "crates" / "flexpret_cli" / "out" / "flexpret_cli"

# A shell starts jobs in the background with the interrupt ignored, and what they start inherits that.
signal.signal(signal.SIGINT, signal.default_int_handler)


def document(name: str) -> Path:
    """A page of docs/, in whichever folder of it the page is."""
    (found,) = (TOP / "docs").rglob(name)
    return found


def as_python3(folder: Path) -> None:
    """Makes the Python that runs the tests the `python3` of each tool and script that they call."""
    wrapper = folder / "python3"
    wrapper.write_text(f'#!/bin/sh\nexec {shlex.quote(sys.executable)} "$@"\n')
    wrapper.chmod(0o755)
    os.environ["PATH"] = f"{folder}:{os.environ['PATH']}"


_folder = tempfile.TemporaryDirectory(prefix="python3-")
as_python3(Path(_folder.name))


@pytest.fixture(scope="session", autouse=True)
def built() -> None:
    """The executables of the tests are newer than their sources, which a checkout leaves in any order."""
    for executable in (TOOLS / "fptools/testing").rglob("*.elf"):
        os.utime(executable)


@pytest.fixture(scope="session")
def flexpret() -> str:
    """The program that FLEXPRET names, or the built one; what asks it is skipped where there is none."""
    program = os.environ.get("FLEXPRET") or str(BUILT)
    if not os.access(program, os.X_OK):
        pytest.skip("no program: build it by ./flexpret, or name it by FLEXPRET")
    return program


@pytest.fixture(scope="session")
def script(flexpret: str, tmp_path_factory: pytest.TempPathFactory) -> str:
    """The script ./flexpret with that program, as if it had built it: it warns, and explains refusals."""
    folder = tmp_path_factory.mktemp("script")
    built = folder / BUILT.relative_to(TOP)
    built.parent.mkdir(parents=True)
    built.symlink_to(Path(flexpret).resolve())
    (folder / "tools").symlink_to(TOOLS)
    (folder / "installed").touch()
    return str(shutil.copy(TOP / "flexpret", folder))


@pytest.fixture(scope="session")
def either(flexpret: str, script: str, tmp_path_factory: pytest.TempPathFactory) -> str:
    """A program that gives the script's answers for bounds, which have to be those of the program: so each case is
    tried with both, and no tool runs twice."""
    both = tmp_path_factory.mktemp("either") / "flexpret"
    program, caller = shlex.quote(str(Path(flexpret).resolve())), shlex.quote(script)
    both.write_text(
        f'#!/bin/bash\ncase $1 in bound | calls) ;; *) exec {program} "$@" ;; esac\n'
        f'wanted=$({program} "$@"; echo "status $?")\n'
        f'found=$(env -u FLEXPRET {caller} "$@"; echo "status $?")\n'
        '[ "$found" = "$wanted" ] || { echo "the script answers $found, the program $wanted" >&2; exit 99; }\n'
        'status=${found##*status }\nprintf %s "${found%status *}"\nexit "$status"\n'
    )
    both.chmod(0o755)
    return str(both)


class Tool:
    """Runs a tool from a folder."""

    def __init__(self, folder: Path, program: str = "") -> None:
        self.folder = folder
        self.environment = {**os.environ, "FLEXPRET": program} if program else dict(os.environ)

    def __call__(self, *words: object, given: str = "") -> subprocess.CompletedProcess[str]:
        tool, *rest = map(str, words)
        return subprocess.run(
            [sys.executable, str(TOOLS / tool), *rest], cwd=self.folder, env=self.environment, input=given,
            capture_output=True, text=True, check=False, timeout=60,
        )  # fmt: skip


@pytest.fixture
def tool() -> Tool:
    """Runs a tool at the top of the repository, without the program."""
    return Tool(TOP)


@pytest.fixture
def asking(either: str) -> Tool:
    """Runs a tool at the top of the repository, which may ask the program, or the script that calls it."""
    return Tool(TOP, either)
