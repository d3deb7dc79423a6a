"""Reports the faults of a setup, and allowed values that are seldom intended.

Each line is FILE:LINE: LEVEL: KEY: what it is. An error is refused by the program; a warning is allowed and seldom
meant; notes are shown with --notes. Exit status: 0 without errors and warnings, 1 with them, 2 if a file can't be read."""

import sys
from pathlib import Path

from fptools.commands.common import new_parser
from fptools.files.lint import Finding, Level, lint
from fptools.files.setup import read_setup
from fptools.files.toml import TomlError


def main() -> int:
    parser = new_parser(__doc__)
    parser.add_argument(
        "setup", type=Path, nargs="+", help="a setup; its image is sought as the program seeks it"
    )
    parser.flag("--notes", "show notes too")
    asked = parser.parse_args()
    status = 0
    for path in asked.setup:
        try:
            findings = lint(read_setup(path))
        except OSError as fault:
            print(f"fp_lint: {fault}", file=sys.stderr)
            status = 2
            continue
        except TomlError as fault:
            findings = [Finding(fault.line, Level.ERROR, "-", fault.text)]
        for finding in findings:
            if finding.level is not Level.NOTE or asked.notes:
                print(f"{path}:{finding}")
            if finding.level is not Level.NOTE:
                status = max(status, 1)
    return status
