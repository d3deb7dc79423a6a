"""Writes a setup with the inputs of a thread from a CSV file, to standard output or to -o.

The file's first row is `cycle,word` or `seconds,value`. A value is multiplied by --scale and
rounded to a word, with a sign if it is below 0; the setup's period makes cycles of seconds. A
setup takes 4,096 inputs of a thread: --changes leaves out inputs that change nothing, --every N
all but the first of each N cycles.

Exit status: 0 the setup is written; 1 too many inputs, with what to do; 2 wrong arguments, or a
file can't be read or written."""

import argparse
import sys
import tomllib
from contextlib import suppress
from decimal import Decimal, InvalidOperation
from pathlib import Path
from typing import Sequence

from fptools.commands.common import failed, let_reader_go, new_parser
from fptools.devices.csv_inputs import (
    MOST_DIGITS,
    MOST_INPUTS,
    Input,
    beyond,
    changes,
    read_inputs,
    spelled,
    thinned,
)
from fptools.files.lint import read_valid
from fptools.files.setup import MOST_BYTES, Setup, setup_of
from fptools.files.toml import TomlError, read_toml
from fptools.files.written import write_whole

TOO_MANY = 1


def scale(text: str) -> Decimal:
    """A factor: any number but 0."""
    try:
        value = Decimal(text)
    except InvalidOperation:
        value = Decimal(0)
    if not value.is_finite() or not value or abs(value.adjusted()) >= MOST_DIGITS:
        raise argparse.ArgumentTypeError(f"{text!r} is no factor")
    return value


def cycles(text: str) -> int:
    """A number of cycles above 0."""
    if not (text.isascii() and text.isdigit() and int(text)):
        raise argparse.ArgumentTypeError(f"{text!r} is no number of cycles")
    return int(text)


def parse() -> argparse.Namespace:
    parser = new_parser(__doc__, "fp_inputs")
    add = parser.add_argument
    parser.path("setup", "the setup", "SETUP")
    parser.path("csv", "the inputs", "CSV")
    add("--thread", type=int, choices=range(8), required=True, metavar="i", help="their thread")
    add("--scale", type=scale, default=Decimal(1), metavar="F", help="the word of a value 1")
    parser.flag("--changes", "leaves out inputs that change nothing")
    add("--every", type=cycles, metavar="N", help="leaves the first input of each N cycles")
    parser.flag("--replace", "the inputs that the thread has are taken out")
    add("-o", "--output", type=Path, metavar="FILE", help="the new setup")
    return parser.parse_args()


def table_of(setup: Setup, thread: int) -> int:
    """The number of a thread's table, which has no inputs yet."""
    for at, table in enumerate(setup.values.get("thread", [])):
        if table["id"] == thread and "inputs" not in table:
            return at
        if table["id"] == thread:
            line = setup.line(("thread", at, "inputs"))
            raise ValueError(
                f"{setup.path}:{line}: thread {thread} has inputs: --replace takes them out"
            )
    raise ValueError(
        f"{setup.path} has no table of thread {thread}: add [[thread]] with id = {thread}"
    )


def without_inputs(setup: Setup, thread: int) -> str:
    """The text of a setup without the inputs of a thread, which may be of several lines."""
    text, values = read_toml(setup.path, MOST_BYTES)
    for at, table in enumerate(values.get("thread", [])):
        if table["id"] == thread and table.pop("inputs", None) is not None:
            lines, first = text.split("\n"), setup.line(("thread", at, "inputs")) or 1
            for last in range(first, len(lines) + 1):
                left = "\n".join(lines[: first - 1] + lines[last:])
                with suppress(tomllib.TOMLDecodeError):
                    if tomllib.loads(left) == values:
                        return left
            raise ValueError(f"{setup.path}:{first}: these inputs aren't on lines of their own")
    return text


def with_inputs(setup: Setup, thread: int, inputs: Sequence[Input], text: str) -> str:
    """The text of a setup, which has no inputs of a thread, with inputs behind the line of its id."""
    at = table_of(setup, thread)
    lines = text.split("\n")
    line = setup.line(("thread", at, "id"))
    lines.insert(line or 0, f"inputs = {spelled(inputs)}")
    made = "\n".join(lines)
    if tomllib.loads(made)["thread"][at].get("inputs") is None:
        raise ValueError(f"{setup.path}: thread {thread} has no [[thread]] of its own")
    if (size := len(made.encode())) > MOST_BYTES:
        raise ValueError(
            f"{setup.path} with these inputs has {size} bytes, of {MOST_BYTES} at most"
        )
    return made


def asked_inputs(asked: argparse.Namespace, period: int) -> list[Input]:
    """The inputs by the arguments, of any number."""
    inputs = read_inputs(asked.csv, asked.scale, period)
    if asked.changes:
        inputs = changes(inputs)
    return thinned(inputs, asked.every) if asked.every else inputs


def main() -> int:
    asked = parse()
    try:
        setup = read_valid(asked.setup)
        inputs = asked_inputs(asked, setup.period)
        if len(inputs) > MOST_INPUTS:
            return failed("fp_inputs", f"{asked.csv}: {beyond(inputs)}", TOO_MANY)
        text, _ = read_toml(setup.path, MOST_BYTES)
        if asked.replace:
            text = without_inputs(setup, asked.thread)
            setup = setup_of(setup.path, text)
        made = with_inputs(setup, asked.thread, inputs, text)
        if asked.output:
            write_whole(asked.output, made.encode())
        else:
            sys.stdout.write(made)
            sys.stdout.flush()
    except BrokenPipeError:
        let_reader_go()
    except (OSError, TomlError, ValueError) as fault:
        return failed("fp_inputs", fault)
    return 0
