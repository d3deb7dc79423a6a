"""Verifies the tables: computes the answer of each row with the model and compares, and compares the rows of other
tools with these too. `python3 -m model.tables.check`"""

import argparse
import sys
from collections.abc import Callable, Iterable, Iterator
from dataclasses import dataclass

from model.commands import answer as command_answer
from model.tables import file_rows, gnu, instruction_rows, qemu, run_rows, text_rows, unit_rows
from model.tables.cases import call_walks, cases, wrong
from model.tables.forms import COMMAND_ROWS, Row, rows
from model.tables.tools import Missing

Answer = Callable[[str], "str | None"]

ANSWERS: dict[str, Answer] = {
    "instructions.txt": instruction_rows.answer,
    "decode.txt": instruction_rows.answer,
    "results.txt": instruction_rows.answer,
    "lines.txt": text_rows.line_answer,
    "tokens.txt": text_rows.tokens_answer,
    "words.txt": text_rows.words_answer,
    "sources.txt": text_rows.source_answer,
    "gnu.txt": text_rows.source_answer,
    "longest.txt": text_rows.source_answer,
    "images.txt": file_rows.image_answer,
    "elf.txt": file_rows.elf_answer,
    "routines.txt": file_rows.routines_answer,
    "units.txt": unit_rows.unit_answer,
    "sections.txt": unit_rows.section_answer,
    "programs.txt": run_rows.program_answer,
    "solo.txt": run_rows.solo_answer,
    "bounds.txt": run_rows.bound_answer,
    "files.txt": lambda call: None,
}
"""The tables of lines, with the function that answers a call; None if the model has no answer."""

COMMAND_TABLES = (
    "commands.txt", "worked.txt", "noted.txt", "limits.txt", "stopped.txt", "settings.txt", "worlds.txt", "calls.txt",
)  # fmt: skip

EXAMPLES = {
    "asm drive.s": "drive.fpx",
    "run drive.toml --thread 0 --cycles 77": "drive.trace",
    "asm sum.s": "sum.fpx",
    "run sum.toml --thread 0 --cycles 820": "sum.trace",
    "bound sum.toml --thread 0 --from 0x10 --to 0x3c": "sum.bound",
    "asm calls.s": "calls.fpx",
    "run calls.toml --thread 0 --cycles 200": "calls.trace",
    "calls calls.toml --thread 0 --from 0x8 --to 0x18 --routines calls.routines": "calls.bound",
    "elf pid.elf": "pid.fpx",
    "run pid.toml --thread 0 --cycles 1250": "pid.trace",
    "bound pid.toml --thread 0 --from 0xb4 --to 0x1a4": "pid.bound",
}
"""Commands over the copies of the examples, each with the file of its output."""


@dataclass
class Tally:
    """The number of compared rows of a table, the number that the model can't answer, and the differences of the
    others."""

    compared: int = 0
    unanswered: int = 0
    differing: int = 0

    def text(self) -> str:
        more = f", {self.unanswered} not" if self.unanswered else ""
        return f"{self.compared} compared{more}, {self.differing} differ"


def checked(found: Iterable[tuple[str, str]], answer: Answer) -> Iterator[Row]:
    """The rows of a table of lines, or of several."""
    for wanted, call in found:
        answered = answer(call)
        is_same = answered == wanted
        yield call, None if answered is None else "" if is_same else f"the model has {answered!r} for {wanted!r}"


def checked_commands(name: str) -> Iterator[Row]:
    for case in cases(name):
        for command in case.commands:
            yield f"{case.name}, {command.line}", wrong(case, command) or ""


def checked_examples() -> Iterator[Row]:
    files = {path.name: path.read_bytes() for path in COMMAND_ROWS.iterdir()}
    named = {**files, **{f"examples/{name}": data for name, data in files.items()}}
    named |= {f"examples/c/{name}": data for name, data in files.items()}
    for line, wanted in EXAMPLES.items():
        _, text = command_answer(line.split(), named)
        yield line, "" if text == files[wanted] else f"isn't {wanted}"


def all_tables() -> dict[str, Callable[[], Iterator[Row]]]:
    """The check of each table, by its name."""
    found: dict[str, Callable[[], Iterator[Row]]] = {
        name: lambda name=name, answer=answer: checked(rows(name), answer)  # type: ignore[misc]
        for name, answer in ANSWERS.items()
    }
    found["setups.txt"] = lambda: checked(file_rows.setup_rows(), file_rows.setup_answer)
    found["copies of the examples"] = checked_examples
    for name in COMMAND_TABLES:
        found[name] = lambda name=name: checked_commands(name)  # type: ignore[misc]
    return found | OTHERWISE


OTHERWISE: dict[str, Callable[[], Iterator[Row]]] = {
    "bounds.txt by all walks": run_rows.walked_rows,
    "calls.txt by all walks": call_walks,
    "decode.txt by GNU as": gnu.decode_rows,
    "gnu.txt by GNU as and ld": gnu.source_rows,
    "results.txt by qemu-riscv32": qemu.result_rows,
}
"""More checks of tables, by the definition itself and by other tools."""


def tally(found: Iterable[Row], show: Callable[[str], None]) -> Tally:
    """Counts rows, and shows those that differ."""
    count = Tally()
    for call, what in found:
        if what is None:
            count.unanswered += 1
            continue
        count.compared += 1
        if what:
            count.differing += 1
            show(f"  {call[:200]}: {what[:400]}")
    return count


def main() -> int:
    parser = argparse.ArgumentParser(description=__doc__)
    parser.add_argument(
        "tables",
        nargs="*",
        help="the names of the tables to verify, as they are printed (left out: all)",
    )
    options = parser.parse_args()
    tables, differing = all_tables(), 0
    for name in options.tables or tables:
        try:
            count = tally(tables[name](), lambda text: print(text, flush=True))
        except Missing as missing:
            print(f"{name}: not compared, {missing}", flush=True)
            continue
        differing += count.differing
        print(f"{name}: {count.text()}", flush=True)
    return 1 if differing else 0


if __name__ == "__main__":
    sys.exit(main())
