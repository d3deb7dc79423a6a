"""Formats the Python of the repository by black, as pyproject.toml has it.

usage: python3 -m dev.gate.format [--check]

With --check nothing is written. Other versions of black format in other ways, so one that isn't Debian 12's does
nothing. Status: 1 with --check, a file has another form; 123 a file can't be read.
"""

import argparse
import subprocess
import sys

from dev.program import TOP

BLACK = "23.1.0"
"""The version of Debian 12."""

FOLDERS = ("tools", "dev", "model", "examples", "rtl", "conftest.py")


def main() -> int:
    parser = argparse.ArgumentParser(description="Formats the Python of the repository by black.")
    parser.add_argument(
        "--check", action="store_true", help="write nothing; status 1 if a file has another form"
    )
    options = parser.parse_args()
    try:
        said = subprocess.run(
            ["black", "--version"], capture_output=True, text=True, check=True
        ).stdout
    except OSError as fault:
        print(f"format.py: black can't be run: {fault.strerror} (Debian: black)", file=sys.stderr)
        return 2
    if BLACK not in said:
        print(f"SKIPPED [1] dev/gate/format.py: black is not {BLACK} (Debian 12: black)")
        return 0
    words = ["black", "--quiet", *(["--check", "--diff"] if options.check else []), *FOLDERS]
    return subprocess.run(words, cwd=TOP, check=False).returncode


if __name__ == "__main__":
    sys.exit(main())
