"""A run without a proof: `rt try` compiles the current sources, and runs the program once."""

import re
import shutil
import subprocess
import sys
import tempfile
from contextlib import suppress
from dataclasses import dataclass, field
from pathlib import Path

from fptools.launch.arguments import COMMANDS, VALUES, parse
from fptools.launch.build import NotBuilt
from fptools.launch.drawing import write
from fptools.launch.setups import image_of
from fptools.launch.up_to_date import Checkout
from fptools.launch.view import form_of
from fptools.launch.view import parse as parse_view
from fptools.view.rows import rows_of

SECONDS = 60
"""The time limit of `rt try` for the program."""

MOST_OUTPUT = 1 << 20
"""The limit of `rt try` for standard output, in bytes."""

ENDED = re.compile(r"^run=ended status=(\d+)", re.MULTILINE)
OWN_LINE = re.compile(r"^(rt: |checked: |run=|interpreted: |compiled: )")
"""A line of `rt try` itself on standard error."""


@dataclass
class Handed:
    """The arguments of the program, and the files that it gets under other names."""

    words: list[str] = field(default_factory=list)
    data: dict[str, Path] = field(default_factory=dict)
    folder: Path = Path()
    """The folder of copies."""

    def add(self, file: str) -> str:
        """Adds a file, and returns its name for the program."""
        name = f"file{len(self.data)}"
        if Path(file).is_file():
            self.data[name] = Path(file).resolve()
        return name

    def add_setup(self, file: str) -> str:
        """Adds a setup with its image. A copy of the setup has the image's name for the program."""
        image = image_of(Path(file))
        if image is None or not Path(image).is_file():
            return self.add(file)
        text = Path(file).read_text(encoding="utf-8-sig")
        name = self.add(image)
        renamed = re.sub(
            r"""(?m)^(\s*image\s*=\s*)(".*?"|'.*?')""", rf'\g<1>"{name}"', text, count=1
        )
        copy = self.folder / f"setup{len(self.data)}.toml"
        copy.write_text(renamed)
        if image_of(copy) != name:
            raise NotBuilt(f"{file}: the line of its image isn't found")
        return self.add(str(copy))


def hand_over(words: list[str], folder: Path) -> Handed:
    """The program's arguments, with other names for the files in them. Each file is named by one argument."""
    name, asked = parse(words)
    handed = Handed(folder=folder)
    subject, kind = asked.subjects[0], COMMANDS[name].subject
    if kind != "NUMBER":
        subject = handed.add_setup(subject) if kind == "SETUP" else handed.add(subject)
    handed.words = [name, subject]
    for option, (value,) in asked.values.items():
        text = handed.add(value) if VALUES[option] == "FILE" else value
        handed.words.append(f"--{option}={text}")
    return handed


def hand_over_view(words: list[str], folder: Path) -> Handed:
    """The same for the view, which writes the state for a drawing. It shows no progress."""
    asked, handed = parse_view(words), Handed(folder=folder)
    window = [f"--{one}={asked.value(one)}" for one in ("from", "to")]
    handed.words = ["turns", handed.add_setup(asked.subjects[0]), *window]
    if form_of(asked) or "state" in asked.values:
        handed.words.append("--state")
    return handed


def run(script: str, checkout: Checkout, words: list[str]) -> int:
    """Runs a command line without a proof, and returns the program's status."""
    if not (checkout.top / "crates.txt").is_file():
        raise NotBuilt("--unproved needs the repository, whose sources it compiles")
    if shutil.which("rt") is None:
        raise NotBuilt("rt of the kit that README.md names isn't on the PATH")
    with tempfile.TemporaryDirectory(prefix="flexpret-") as name:
        folder, is_view = Path(name), checkout.crate != "flexpret_cli"
        handed = (hand_over_view if is_view else hand_over)(words, folder)
        print(
            f"{script}: nothing of this answer is proved; it takes about a minute",
            file=sys.stderr,
            flush=True,
        )
        status, output, said = try_program(checkout, handed)
    if status == 0 and is_view and form_of(asked := parse_view(words)):
        status = write(script, asked, rows_of(output.decode().splitlines()))
    else:
        with suppress(BrokenPipeError), open(1, "wb", closefd=False) as out:
            out.write(output)
    sys.stderr.write("".join(f"{line}\n" for line in said.splitlines() if not OWN_LINE.match(line)))
    return status


def try_program(checkout: Checkout, handed: Handed) -> tuple[int, bytes, str]:
    """Runs `rt try`, and returns the program's status and its output on both streams. If the program doesn't end by itself, raises NotBuilt."""
    data = [word for name, file in handed.data.items() for word in ("--data", f"{name}={file}")]
    ran = subprocess.run(
        ["rt", "try", *data, "--seconds", str(SECONDS), "--", *handed.words], cwd=checkout.top / "crates" / checkout.crate,
        stdin=subprocess.DEVNULL, capture_output=True, check=False,
    )  # fmt: skip
    said = ran.stderr.decode(errors="replace")
    ended = ENDED.search(said)
    if ended and int(ended[1]) == ran.returncode:
        return ran.returncode, ran.stdout, said
    last = next((line for line in reversed(said.splitlines()) if line.strip()), None)
    raise NotBuilt(
        f"no answer: rt try gives up after {SECONDS} seconds or {MOST_OUTPUT} bytes of output ({(last or f'status {ran.returncode}')[:200]})"
    )
