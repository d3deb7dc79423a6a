"""The commands of tools/fp_launch: fp_launch SCRIPT CRATE COMMAND ARGUMENT.."""

import os
import sys
from pathlib import Path

from fptools.checkout import TOP
from fptools.launch.up_to_date import Checkout, kit_line, read_stamp
from fptools.program.status import NOT_BUILT, Status

# The other modules are imported by the commands that need them, since each call waits for its imports.


def say(script: str, line: str) -> None:
    print(f"{script}: {line}", file=sys.stderr, flush=True)


def is_built(script: str, checkout: Checkout, words: list[str]) -> int:
    """Status 0 if the program was built from the current sources, else 1."""
    return 0 if checkout.is_built() else 1


def build(script: str, checkout: Checkout, words: list[str]) -> int:
    """Builds the program."""
    from fptools.launch.build import NotBuilt
    from fptools.launch.build import build as build_program

    try:
        build_program(script, checkout, bool(os.environ.get("FLEXPRET_QUIET")))
    except NotBuilt as fault:
        say(script, str(fault))
        return NOT_BUILT
    return 0


def unproved(script: str, checkout: Checkout, words: list[str]) -> int:
    """Runs the program without a proof, by `rt try`."""
    from fptools.launch.build import NotBuilt
    from fptools.launch.unproved import run

    try:
        return run(script, checkout, words)
    except (NotBuilt, OSError) as fault:
        say(script, str(fault))
        return NOT_BUILT


def draw(script: str, checkout: Checkout, words: list[str]) -> int:
    """Draws the window of `turns`. The arguments are the program and then the command."""
    from fptools.launch.drawing import draw as draw_window

    return draw_window(script, words[0], words[1:])


def explain(script: str, checkout: Checkout, words: list[str]) -> int:
    """Reports a wrong argument, with status 2. Status 0: there is none."""
    from fptools.launch.arguments import Fault, parse
    from fptools.launch.view import parse as parse_view

    try:
        parse(words) if checkout.crate == "flexpret_cli" else parse_view(words)
    except Fault as fault:
        say(script, str(fault))
        return Status.USAGE
    return Status.OK


def files(script: str, checkout: Checkout, words: list[str]) -> int:
    """Reports the file of a command that can't be read."""
    from fptools.launch.arguments import Fault, files_of
    from fptools.launch.files import lines
    from fptools.launch.view import parse

    try:
        named = (
            files_of(words)
            if checkout.crate == "flexpret_cli"
            else [(parse(words).subjects[0], "setup")]
        )
    except (Fault, IndexError):
        return 1
    for line in lines(named):
        say(script, line)
    return 0


def warn(script: str, checkout: Checkout, words: list[str]) -> int:
    """Prints the warnings about a bound. The arguments are its line and then the command."""
    from fptools.launch.arguments import Fault
    from fptools.launch.bounds import warnings

    try:
        for line in warnings(words[1:], words[0]):
            say(script, f"warning: {line}")
    except (Fault, OSError, ValueError):
        return 1
    return 0


def nothing(script: str, checkout: Checkout, words: list[str]) -> int:
    """Says why a run has no event. The arguments are the setup, the thread and the cycles."""
    from fptools.launch.nothing import why

    try:
        say(script, why(Path(words[0]), int(words[1]), int(words[2])))
    except (OSError, ValueError, KeyError, TypeError):
        return 1
    return 0


def option(script: str, checkout: Checkout, words: list[str]) -> int:
    """Prints the value of an option of a command."""
    from fptools.launch.arguments import Fault, parse

    try:
        print(parse(words[1:])[1].value(words[0]))
    except (Fault, KeyError):
        return 1
    return 0


def version(script: str, checkout: Checkout, words: list[str]) -> int:
    """Prints the commit and the kit of a program: the checkout's, or the one in a file."""
    program = Path(words[0]) if words else checkout.program
    is_current = bool(words) or (checkout.top / "installed").exists() or checkout.is_built()
    stamp = read_stamp(Path(f"{program}.sources") if words else checkout.stamp)
    if not program.is_file():
        print(f"{script}: not built")
    elif stamp is None or not is_current:
        print(f"{script}: {program}: no record says from which sources it was built")
    else:
        print(f"{script}: commit {stamp.commit}, {stamp.kit}, proved: {program}")
    print(f"kit here: {kit_line()}")
    return 0


COMMANDS = {
    "is-built": is_built, "build": build, "unproved": unproved, "explain": explain, "files": files, "warn": warn, "option": option,
    "version": version, "nothing": nothing, "draw": draw,
}  # fmt: skip


def main(words: list[str]) -> int:
    script, crate, command, *rest = words
    return COMMANDS[command](script, Checkout(TOP, crate), rest)
