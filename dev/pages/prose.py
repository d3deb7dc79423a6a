"""Counts the words of the documents for users, and measures the sentences of all documents.

usage: python3 -m dev.pages.prose [--longest N] [PAGE..]

Without a page: README.md and the pages of docs/ itself, which have at most MOST_WORDS words together, counted as `wc -w`
does; then all other pages, the man pages, and the texts of `--help` of the tools and scripts. The limits of sentences
are of each group: a mean of fewer than 18 words in paragraphs and lists; no sentence of more than 35 words, in tables
too. A piece of code or a link's target counts as one word of its sentence; blocks of code have no sentences. In
CHANGELOG, man pages and `--help` a semicolon ends a sentence too, since it separates items. Status: 0 the limits hold;
1 one doesn't; 2 a page can't be read.
"""

import argparse
import ast
import re
import sys
from collections.abc import Iterator, Mapping
from dataclasses import dataclass
from pathlib import Path

from dev.program import TOP

MOST_WORDS = 22_000
MEAN_BELOW = 18.0
LONGEST = 35

LIST_ITEM = re.compile(r"^\s*(?:[-*]|\d+\.)\s+")
SENTENCE_END = re.compile(r"(?<=[.!?])[\"')*_]*\s+")


@dataclass(frozen=True)
class Sentence:
    """A sentence with its page and the line at which its paragraph begins."""

    page: str
    line: int
    text: str
    in_table: bool

    @property
    def length(self) -> int:
        """The number of words: texts between spaces that have a letter or a digit."""
        return sum(any(char.isalnum() for char in word) for word in self.text.split())


def plain(text: str) -> str:
    """Text without marks: code is one word, a link is its text, an image is nothing."""
    text = re.sub(r"``.*?``|`[^`]*`", "CODE", text)
    text = re.sub(r"!\[[^\]]*\]\([^)]*\)", "", text)
    text = re.sub(r"\[([^\]]*)\]\([^)]*\)", r"\1", text)
    return re.sub(r"[*_]{1,2}", "", text)


def paragraphs(text: str) -> Iterator[tuple[int, str, bool]]:
    """Each paragraph, item of a list or cell of a table: its first line, its text, and whether it is in a table."""
    held: list[str] = []
    first, fenced, blank, code, comment = 0, False, True, False, False
    for number, line in enumerate(text.splitlines(), 1):
        stripped = line.strip()
        comment = comment or stripped.startswith("<!--")
        if comment:
            comment = not stripped.endswith("-->")
            continue
        if stripped.startswith("```"):
            fenced = not fenced
        code = line.startswith("    ") and (blank or code) and bool(stripped)
        ends = (
            fenced
            or code
            or not stripped
            or stripped.startswith(("#", "|", "```"))
            or LIST_ITEM.match(line)
        )
        if held and ends:
            yield first, " ".join(held), False
            held = []
        blank = not stripped or (code and blank)
        if fenced or code or not stripped or stripped.startswith(("#", "```")):
            blank = blank or code
            continue
        if stripped.startswith("|"):
            cells = re.sub(r"`[^`]*`", "CODE", stripped).strip("|").split("|")
            for cell in cells:
                if cell.strip(" -:"):
                    yield number, cell, True
            continue
        first = first if held else number
        held.append(LIST_ITEM.sub("", line).strip())
    if held:
        yield first, " ".join(held), False


def sentences(page: str, text: str) -> list[Sentence]:
    """The sentences of a page."""
    found = []
    for line, paragraph, in_table in paragraphs(text):
        for piece in SENTENCE_END.split(plain(paragraph)):
            sentence = Sentence(page, line, piece.strip(), in_table)
            if sentence.length:
                found.append(sentence)
    return found


def user_pages() -> list[Path]:
    """README.md and the pages of docs/ itself; those of docs/dev/ are for developers."""
    return [TOP / "README.md", *sorted((TOP / "docs").glob("*.md"))]


def other_pages() -> list[Path]:
    """All other pages, man pages, and the tools and scripts with a `--help`."""
    pages = [*(TOP / "docs/dev").glob("*.md"), TOP / "CHANGELOG.md", TOP / "tools/README.md"]
    pages += [
        *(TOP / "examples").rglob("README.md"),
        TOP / "model/README.md",
        TOP / "rtl/README.md",
    ]
    tools = [
        *(TOP / "tools/fptools/commands").glob("fp_*.py"),
        TOP / "tools/fp_launch",
        TOP / "tools/install.sh",
    ]
    tools += [TOP / "flexpret", TOP / "flexpret-view"]
    return sorted(pages) + sorted((TOP / "tools").glob("*.1")) + sorted(tools)


def text_of(page: Path) -> str:
    """A page as Markdown has it: of a man page its text, of a tool or script what its `--help` says."""
    text = page.read_text()
    if page.suffix == ".1":
        text = of_man_page(text)
    elif re.match(r"#!.*\bbash\b", text):
        text = of_script(text)
    elif page.suffix in ("", ".py"):
        text = of_help(text)
    elif page.name != "CHANGELOG.md":
        return text
    return re.sub(r";(?=\s)", ".", text)


def of_man_page(text: str) -> str:
    """The paragraphs of a man page: each request but those of fonts ends one."""
    lines = []
    for line in text.splitlines():
        found = re.match(r"\.(BI|BR|IR|RI|B|I) ?(.*)", line)
        if found:
            end = found[2].split()[-1:]
            lines.append("CODE" + "".join(it for it in end if it in (".", ",", ";")))
        elif line.startswith("."):
            lines.append("")
        else:
            lines.append(re.sub(r"\\f[BIPR]|\\", "", line))
    return "\n".join(lines)


def of_help(text: str) -> str:
    """The docstring of a tool, and its helps of arguments. Lines further in than the others are code."""
    tree = ast.parse(text)
    named = dict(named_texts(tree))
    parts = [ast.get_docstring(tree) or ""]
    for node in ast.walk(tree):
        if isinstance(node, ast.keyword) and node.arg in ("help", "description", "epilog"):
            parts.append(literal(node.value, named))
    return "\n\n".join(parts)


def named_texts(tree: ast.Module) -> Iterator[tuple[str, str]]:
    """The names of texts in a module, also those that it imports of the package of tools."""
    for node in ast.walk(tree):
        if isinstance(node, ast.Assign) and isinstance(node.targets[0], ast.Name):
            yield node.targets[0].id, literal(node.value, {})
        elif isinstance(node, ast.ImportFrom) and (node.module or "").startswith("fptools."):
            source = TOP / "tools" / f"{(node.module or '').replace('.', '/')}.py"
            wanted = {it.name for it in node.names if it.name.isupper()}
            if wanted and source.is_file():
                yield from (
                    it for it in named_texts(ast.parse(source.read_text())) if it[0] in wanted
                )


def literal(node: ast.expr, named: Mapping[str, str]) -> str:
    """A text as a source has it: what an f-string computes is one word."""
    if isinstance(node, ast.Constant):
        return node.value if isinstance(node.value, str) else ""
    if isinstance(node, ast.JoinedStr):
        return "".join(
            literal(it, named) if isinstance(it, ast.Constant) else "CODE" for it in node.values
        )
    if isinstance(node, ast.BinOp):
        return literal(node.left, named) + literal(node.right, named)
    return named.get(node.id, "") if isinstance(node, ast.Name) else ""


def of_script(text: str) -> str:
    """The help of a script of bash: its text between END_OF_HELP, an item for each line further in. Without one, the
    comment at its head."""
    found = re.search(r"<<'END_OF_HELP'\n(.*?)^END_OF_HELP$", text, re.S | re.M)
    if found is None:
        head = re.match(r"#!.*\n((?:#.*\n)*)", text)
        return re.sub(r"^# ?", "", head[1] if head else "", flags=re.M)
    return re.sub(r"^ {1,8}(?=\S)", "\n", found[1], flags=re.M)


@dataclass(frozen=True)
class Group:
    """Pages that are measured together."""

    name: str
    words: int
    found: list[Sentence]

    @property
    def mean(self) -> float:
        prose = [it.length for it in self.found if not it.in_table]
        return sum(prose) / max(len(prose), 1)

    @property
    def long(self) -> list[Sentence]:
        return [it for it in self.found if it.length > LONGEST]


def measured(name: str, pages: list[Path]) -> Group:
    """Measures pages, and prints a line for each and one for all."""
    words, found = 0, list[Sentence]()
    for page in pages:
        text = text_of(page)
        one = Group(page.name, len(text.split()), sentences(page.name, text))
        longest = max((it.length for it in one.found), default=0)
        print(
            f"{one.name:18} {one.words:6} words, mean sentence {one.mean:5.1f}, longest {longest:3}"
        )
        words += one.words
        found += one.found
    group = Group(name, words, found)
    print(
        f"{group.name:18} {group.words:6} words, mean sentence {group.mean:5.1f}, {len(group.long)} over {LONGEST}"
    )
    return group


def main() -> int:
    """Measures the pages, and compares with the limits."""
    parser = argparse.ArgumentParser(
        description="Counts the words of the documents for users, and measures the sentences of all documents."
    )
    parser.add_argument(
        "--longest", type=int, default=0, metavar="N", help="also print the N longest sentences"
    )
    parser.add_argument("pages", nargs="*", type=Path, metavar="PAGE", help="default: all")
    options = parser.parse_args()
    try:
        groups = [measured("all", options.pages or user_pages())]
        groups += [] if options.pages else [measured("all others", other_pages())]
    except OSError as error:
        print(f"prose.py: {error}", file=sys.stderr)
        return 2
    for group in groups:
        for it in sorted(group.found, key=lambda each: -each.length)[
            : max(options.longest, len(group.long))
        ]:
            print(f"{it.page}:{it.line}: {it.length} words: {it.text}")
    is_wrong = any(group.mean >= MEAN_BELOW or group.long for group in groups)
    return int(groups[0].words > MOST_WORDS or is_wrong)


if __name__ == "__main__":
    sys.exit(main())
