"""Compares the numbers in the tables of the documents with the code: lags, causes, CSRs, statuses, codes of refusals,
limits.

usage: python3 -m dev.pages.doc_numbers [FOLDER]

FOLDER has the pages, docs/ if it isn't given. Each fact is read from the sources of the crates, or from the model
where the code gives it no name. A line names each difference, and each row that a table lacks. Status: 0 nothing
differs; 1 something does; 2 a page, a table or a constant isn't where it is looked for.
"""

import re
import sys
from collections.abc import Iterator
from dataclasses import dataclass
from pathlib import Path

from dev.program import TOP

from fptools.limits import MOST_PICTURE
from model.images import MOST_BYTES as MOST_IMAGE_BYTES
from model.instructions import decode, lag
from model.setups import LARGE, SMALL

CONSTANT = re.compile(
    r"^\s*(?:pub(?:\([a-z]+\))? )?const ([A-Z_]+): [a-z0-9]+ = ([0-9a-fA-Fx_]+);", re.M
)

Table = list[list[str]]


class NotFound(Exception):
    """A page, a table or a constant isn't where it is looked for."""


@dataclass
class Pages:
    """The pages, and the sources of the crates."""

    folder: Path
    sources: dict[str, str]

    def text(self, page: str) -> str:
        """A page."""
        try:
            return (self.folder / page).read_text()
        except OSError as error:
            raise NotFound(str(error)) from None

    def table(self, page: str, heading: str, number: int = 0) -> Table:
        """A table behind a heading: its rows of cells, without the head."""
        lines = iter(self.text(page).splitlines())
        if not any(line.lstrip("#").strip() == heading and line.startswith("#") for line in lines):
            raise NotFound(f"{page}: no heading {heading!r}")
        tables: list[Table] = [[]]
        for line in lines:
            if line.startswith("#"):
                break
            if line.startswith("|"):
                cells = re.split(r"(?<!\\)\|", line.strip().strip("|"))
                tables[-1].append([cell.strip() for cell in cells])
            elif tables[-1]:
                tables.append([])
        found = [table[2:] for table in tables if table]
        if len(found) <= number:
            raise NotFound(f"{page}: {heading}: no table {number}")
        return found[number]

    def constants(self, *names: str) -> dict[str, int]:
        """Constants of the crates, by name; each must have one value."""
        values: dict[str, set[int]] = {name: set() for name in names}
        for text in self.sources.values():
            for name, value in CONSTANT.findall(text):
                if name in values:
                    values[name].add(int(value.replace("_", ""), 0))
        for name, found in values.items():
            if len(found) != 1:
                raise NotFound(f"constant {name}: {len(found)} values in the sources")
        return {name: found.pop() for name, found in values.items()}

    def source(self, words: str) -> str:
        """The one source that has these words."""
        found = [text for text in self.sources.values() if words in text]
        if len(found) != 1:
            raise NotFound(f"{words!r}: {len(found)} sources")
        return found[0]


EXAMPLES = {
    "arithmetic": 0x00B50533,
    "stores": 0x00B52023,
    "GT": 0x0000050B,
    "GTH": 0x0000158B,
    "FENCE": 0x0FF0000F,
    "FENCE.I": 0x0000100F,
    "loads": 0x00012283,
    "CSR instructions": 0x34002573,
    "DU": 0x00A5A00B,
    "WU": 0x00A5B00B,
    "EE": 0x00A5C00B,
    "DE": 0x0000500B,
    "JAL": 0x0000006F,
    "JALR": 0x00008067,
    "MRET": 0x30200073,
    "ECALL": 0x00000073,
    "EBREAK": 0x00100073,
    "illegal words": 0,
    **{
        name: 0x02B50533 | funct3 << 12
        for funct3, name in enumerate("MUL MULH MULHSU MULHU DIV DIVU REM REMU".split())
    },
}
"""A word of each kind of instruction in the table of lags."""

BRANCH = 0x00000463


def lags(pages: Pages) -> Iterator[str]:
    """The table of lags: each kind of instruction is in the row of its lag."""
    rows = pages.table("PROGRAMMING.md", "Lags")
    rest = {**{name: lag(decode(word), False, False) for name, word in EXAMPLES.items()}}
    rest["branches that aren't taken"] = lag(decode(BRANCH), False, False)
    rest["taken branches"] = lag(decode(BRANCH), True, False)
    rest["every trap"] = lag(decode(EXAMPLES["loads"]), False, True)
    code = pages.constants("PLAIN_LAG", "LATE_LAG", "REDIRECT_LAG")
    if sorted(code.values()) != sorted(int(row[0]) for row in rows):
        yield f"lags: the code has {sorted(code.values())}"
    for number, names in rows:
        for name in re.split(r"[,;] (?:and )?", names):
            if rest.pop(name, None) != int(number):
                yield f"lags: {name} isn't of lag {number}"
    yield from (f"lags: {name} has no row; its lag is {value}" for name, value in rest.items())


EDGES = {"arithmetic": 1, "loads": 2, "MUL": 2, "CSR": 3, "branches": 1, "JAL,": 3}


def edges(pages: Pages) -> Iterator[str]:
    """The costs of edges: those of the table of lags."""
    for names, following in pages.table("BOUNDS.md", "Cost of each instruction"):
        kinds = [
            name
            for name in re.split(r"[,;] ", names.replace("MUL to REMU", "MUL"))
            if name in EXAMPLES
        ]
        found = re.findall(r"the next word, (\d)|the target, (\d)", following)
        for kind in kinds if found else []:
            cost = lag(decode(EXAMPLES[kind]), False, False)
            if str(cost) != "".join(found[0]):
                yield f"costs: {kind} costs {cost}"
        if names == "branches":
            shown = [int("".join(pair)) for pair in found]
            if shown != [lag(decode(BRANCH), taken, False) for taken in (False, True)]:
                yield f"costs: branches: {shown}"


CAUSES = {
    "MISALIGNED_TARGET": "jump or taken branch",
    "FETCH_FAULT": "fetch",
    "ILLEGAL": "illegal",
    "BREAKPOINT": "EBREAK",
    "MISALIGNED_LOAD": "misaligned load",
    "LOAD_FAULT": "a load that isn't",
    "MISALIGNED_STORE": "misaligned store",
    "STORE_FAULT": "a store that isn't",
    "ENVIRONMENT_CALL": "ECALL",
    "EXPIRY": "armed moment",
}
"""Constants of causes, each with words of its row."""


def causes(pages: Pages) -> Iterator[str]:
    """The table of traps."""
    rows = {int(row[0]): row[1] for row in pages.table("PROGRAMMING.md", "Traps")}
    code = pages.constants(*CAUSES)
    for name, words in CAUSES.items():
        if words not in rows.pop(code[name], ""):
            yield f"causes: {code[name]} is {name}"
    yield from (f"causes: {number} isn't in the code" for number in rows)


def csrs(pages: Pages) -> Iterator[str]:
    """The table of control and status registers."""
    rows = {
        row[1].strip("`"): int(row[0], 0)
        for row in pages.table("PROGRAMMING.md", "Control and status registers")
    }
    code = {
        name.lower(): value
        for name, value in pages.constants(*(name.upper() for name in rows)).items()
    }
    yield from (f"CSRs: {name} is {code[name]:#x}" for name in rows if rows[name] != code[name])


def timing(pages: Pages) -> Iterator[str]:
    """The numbers of the timing instructions."""
    for mnemonic, number, _ in pages.table("PROGRAMMING.md", "Time"):
        name = mnemonic.strip("`").split()[0]
        row = rf"(?:get_row|moment_row) {number} \(λ w\. {name.capitalize()} |funct3 {number} ∷.*\(λ w\. {name.capitalize()}\)"
        if not re.search(row, pages.source("time_rows : List")):
            yield f"timing instructions: {name} isn't {number}"


def statuses(pages: Pages) -> Iterator[str]:
    """The table of statuses."""
    rows = [int(row[0]) for row in pages.table("COMMANDS.md", "Streams and statuses")]
    code = [
        int(number)
        for number in re.findall(
            r"^number_of [A-Z]\w* = (\d+)$", pages.source("number_of : Status"), re.M
        )
    ]
    if rows != sorted(code):
        yield f"statuses: the code has {sorted(code)}"


REFUSALS = {
    "setup_name": [("COMMANDS.md", "Setups")],
    "section_name": [("COMMANDS.md", "Sections and threads")],
    "image_name": [("dev/REFUSALS.md", "Images"), ("dev/REFUSALS.md", "Executables")],
    "source_name": [("dev/REFUSALS.md", "Sources")],
    "bound_name": [("BOUNDS.md", "Refusals")],
    "routine_name": [("dev/REFUSALS.md", "Lists of routines")],
}
"""The functions that name codes, each with the tables that have them."""


def refusals(pages: Pages) -> Iterator[str]:
    """The codes and names of refusals, in each direction."""
    source = pages.source("fn setup_name(")
    for function, tables in REFUSALS.items():
        body = source.split(f"fn {function}(")[1].split("\n}\n")[0]
        code = {
            (int(number), name)
            for numbers, name in re.findall(r"^\s*([\d| ]+) => \"(\w+)\"", body, re.M)
            for number in numbers.split("|")
        }
        shown = set()
        for page, heading in tables:
            for row in pages.table(page, heading):
                number, name = row[0].split()
                shown.add((int(number), name))
        yield from (f"{tables[0][1]}: {code_name} has no row" for code_name in sorted(code - shown))
        yield from (f"{tables[0][1]}: {row} isn't in the code" for row in sorted(shown - code))


LIMITS = (
    ("COMMANDS.md", "at most {}; for `check`", "MOST_CYCLES"),
    ("COMMANDS.md", "for `check` at most {}", "MOST_CHECKED_CYCLES"),
    ("COMMANDS.md", "decimal digits, at most {}", "MOST_NUMBER"),
    ("COMMANDS.md", "| 1 TooLong | `-` | more than {} bytes", "MOST_SETUP_BYTES"),
    ("FORMATS.md", "document of at most {} bytes", "MOST_SETUP_BYTES"),
    ("COMMANDS.md", "{} loops or", "MOST_LOOPS"),
    ("COMMANDS.md", "{} inputs of a thread", "MOST_INPUTS"),
    ("FORMATS.md", "at most {} tables | no | the loop", "MOST_LOOPS"),
    ("FORMATS.md", "at most {} pairs", "MOST_INPUTS"),
    ("FORMATS.md", "a source of at most {} bytes", "MOST_SOURCE_BYTES"),
    ("dev/REFUSALS.md", "| more than {} bytes |\n| 2 Lex", "MOST_SOURCE_BYTES"),
    ("dev/REFUSALS.md", "more than {} bytes | strip", "MOST_ELF_BYTES"),
    ("dev/REFUSALS.md", "more than {} segments", "MOST_SEGMENTS"),
    ("FORMATS.md", "number of segments, 0 to {}", "MOST_SEGMENTS"),
    ("dev/REFUSALS.md", "more than {} lines", "MOST_ROUTINES"),
    ("FORMATS.md", "has at most {} lines", "MOST_ROUTINES"),
    ("FORMATS.md", "both scratchpads, {} or", "SMALL_SIZE"),
    ("FORMATS.md", "or {} bytes; SIZE", "LARGE_SIZE"),
    ("PROGRAMMING.md", "each scratchpad has {} bytes", "LARGE_SIZE"),
    ("FORMATS.md", "pairs: a cycle, 0 to {}", "MOST_CYCLES"),
    ("FORMATS.md", "integer, 0 to {} | no: never", "MOST_CYCLES"),
)
"""Limits that pages write with a comma between thousands: the page, its words, and the constant of the code."""


def limits(pages: Pages) -> Iterator[str]:
    """Limits, as the pages write them."""
    code = pages.constants(*{name for _, _, name in LIMITS}, "DEEPEST")
    wanted = [
        *((page, words, code[name]) for page, words, name in LIMITS),
        ("dev/REFUSALS.md", "more than {} bytes, or", MOST_IMAGE_BYTES[SMALL]),
        ("dev/REFUSALS.md", "bytes, or {} with", MOST_IMAGE_BYTES[LARGE]),
        ("VIEW.md", "`to` is at most {}", code["MOST_CYCLES"] - 3),
        ("VIEW.md", "at most {} cycles", MOST_PICTURE),
    ]
    for page, words, value in wanted:
        if words.format(f"{value:,}") not in pages.text(page):
            yield f"limits: {page} doesn't say: {words.format(f'{value:,}')!r}"
    if code["DEEPEST"] != 4 or "At most four loops may be nested" not in pages.text("BOUNDS.md"):
        yield f"limits: {code['DEEPEST']} loops may be nested"


CHECKS = (lags, edges, causes, csrs, timing, statuses, refusals, limits)


def main() -> int:
    """Compares all tables."""
    folder = Path(sys.argv[1]) if len(sys.argv) > 1 else TOP / "docs"
    sources = {
        str(path): path.read_text()
        for ending in ("src/**/*.rt", "specs/*.antt")
        for path in (TOP / "crates").glob(f"*/{ending}")
    }
    pages, differ = Pages(folder, sources), 0
    for check in CHECKS:
        try:
            for difference in check(pages):
                differ += 1
                print(f"doc_numbers.py: {difference}")
        except NotFound as error:
            print(f"doc_numbers.py: {check.__name__}: {error}", file=sys.stderr)
            return 2
    print(f"doc_numbers.py: {len(CHECKS)} kinds of numbers, {differ} differ")
    return 1 if differ else 0


if __name__ == "__main__":
    sys.exit(main())
